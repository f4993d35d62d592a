//! Stands in for `function_list.rs`: a list of procedures, run in order until one fails. No answer goes through it,
//! because the oracle calls the procedures themselves.

pub struct ProcedureList<P> {
    procedures: Vec<P>,
}

impl<P> ProcedureList<P> {
    pub fn new() -> Self {
        Self {
            procedures: Vec::new(),
        }
    }

    pub fn add(&mut self, procedure: P) {
        self.procedures.push(procedure);
    }

    pub fn execute(&mut self, run: impl FnMut(&mut P) -> bool) -> bool {
        self.procedures.iter_mut().all(run)
    }
}
