"""The processors that the archive is compiled for, under the names of their folders in target/staticlib."""
from collections import namedtuple

# words: for clang. level: of optimisation, the kit's on a large machine, less code on a small one. sums: whether sums of f64 are
# tools/sums.c's, where the C library's are not rounded right.
Target = namedtuple("Target", "triple cpu words level sums", defaults=[False])


def arm(triple, cpu, *words, sums=False):
    return Target(triple, cpu, [f"-mcpu={cpu}", "-mthumb", *words], "-Os", sums)


# as the kit has it for aarch64
RENAMED = ["-mllvm", "-aarch64-load-store-renaming=false"]

TARGETS = {
    "aarch64-unknown-linux-gnu": Target("aarch64-unknown-linux-gnu", "generic", ["-mcpu=generic", "-fPIC", *RENAMED], "-O3"),
    # Cortex-M4F: a float unit for f32 alone, so that f64 is computed by the C library and tools/sums.c; floats cross in its registers
    "thumbv7em-none-eabihf": arm("thumbv7em-none-eabihf", "cortex-m4", "-mfpu=fpv4-sp-d16", "-mfloat-abi=hard", sums=True),
    # Cortex-M7 with a float unit for f64
    "thumbv7em-none-eabihf.cortex-m7": arm("thumbv7em-none-eabihf", "cortex-m7", "-mfpu=fpv5-d16", "-mfloat-abi=hard"),
    # Cortex-M3: no float unit
    "thumbv7m-none-eabi": arm("thumbv7m-none-eabi", "cortex-m3", "-mfloat-abi=soft", sums=True),
    "riscv32imac-unknown-none-elf": Target("riscv32-unknown-none-elf", "generic-rv32", ["-march=rv32imac", "-mabi=ilp32"], "-Os"),
}
