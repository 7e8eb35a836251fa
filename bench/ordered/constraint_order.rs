
// Added by the bench: an order for the map of constraints, which is looked up and never walked.
impl PartialOrd for Constraint {
    fn partial_cmp(&self, other: &Constraint) -> Option<::std::cmp::Ordering> {
        Some(self.cmp(other))
    }
}

impl Ord for Constraint {
    fn cmp(&self, other: &Constraint) -> ::std::cmp::Ordering {
        (&*self.0 as *const ConstraintData).cmp(&(&*other.0 as *const ConstraintData))
    }
}
