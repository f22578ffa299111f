/// Makes private items callable.
pub mod probe {
    use super::*;

    /// What a bind or an unbind came to.
    #[derive(Debug, Clone, Copy, PartialEq, Eq)]
    pub enum Outcome {
        Done,
        IllegalRequest,
        InvalidBinding,
        TableFull,
    }

    fn outcome(result: Result<(), BindingError>) -> Outcome {
        match result {
            Ok(()) => Outcome::Done,
            Err(BindingError::IllegalRequest) => Outcome::IllegalRequest,
            Err(BindingError::InvalidBinding) => Outcome::InvalidBinding,
            Err(BindingError::TableFull) => Outcome::TableFull,
        }
    }

    pub fn create<const N: usize>(table: &mut BindingTable<N>, binding: Binding) -> Outcome {
        outcome(create_binding_link(table, binding))
    }

    pub fn remove<const N: usize>(table: &mut BindingTable<N>, binding: &Binding) -> Outcome {
        outcome(remove_binding_link(table, binding))
    }
}
