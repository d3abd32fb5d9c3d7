//! How many tasks and variables there are.

pub const TASKS: usize = 8;
pub const VARIABLES: usize = 64;

/// A task that there is: 0 to 7.
#[derive(Clone, Copy, PartialEq, Eq, Debug)]
pub struct Task(u8);

impl Task {
    pub fn new(number: u8) -> Option<Self> {
        (usize::from(number) < TASKS).then_some(Self(number))
    }

    pub fn index(self) -> usize {
        usize::from(self.0) % TASKS
    }

    pub fn all() -> impl Iterator<Item = Self> {
        (0..TASKS as u8).map(Self)
    }

    pub fn others(self) -> impl Iterator<Item = Self> {
        Self::all().filter(move |&other| other != self)
    }
}

/// A variable that there is: 0 to 63.
#[derive(Clone, Copy, PartialEq, Eq, Debug)]
pub struct Variable(u8);

impl Variable {
    pub fn new(number: u8) -> Option<Self> {
        (usize::from(number) < VARIABLES).then_some(Self(number))
    }

    pub fn number(self) -> u8 {
        self.0
    }

    pub fn index(self) -> usize {
        usize::from(self.0) % VARIABLES
    }
}

/// A set of variables, one bit for each.
#[derive(Clone, Copy, PartialEq, Eq, Debug, Default)]
pub struct VarSet(u64);

impl VarSet {
    pub const EMPTY: Self = Self(0);

    pub fn has(self, variable: Variable) -> bool {
        self.0 >> variable.index() & 1 == 1
    }

    pub fn add(&mut self, variable: Variable) {
        self.0 |= 1 << variable.index();
    }

    pub fn is_empty(self) -> bool {
        self.0 == 0
    }

    pub fn meets(self, other: Self) -> bool {
        self.0 & other.0 != 0
    }
}

impl IntoIterator for VarSet {
    type Item = Variable;
    type IntoIter = Members;

    fn into_iter(self) -> Members {
        Members(self.0)
    }
}

/// The variables of a set in rising order.
pub struct Members(u64);

impl Iterator for Members {
    type Item = Variable;

    fn next(&mut self) -> Option<Variable> {
        if self.0 == 0 {
            return None;
        }
        let lowest = self.0.trailing_zeros() as u8;
        self.0 &= self.0 - 1;
        Some(Variable(lowest))
    }
}

#[cfg(test)]
mod tests {
    use super::*;

    #[test]
    fn there_are_8_tasks_and_64_variables() {
        assert!(Task::new(7).is_some());
        assert!(Task::new(8).is_none());
        assert!(Variable::new(63).is_some());
        assert!(Variable::new(64).is_none());
    }

    #[test]
    fn a_set_gives_its_members_back() {
        let mut set = VarSet::EMPTY;
        for number in [63, 0, 17] {
            set.add(Variable::new(number).unwrap());
        }
        let members: Vec<u8> = set.into_iter().map(Variable::number).collect();
        assert_eq!(members, [0, 17, 63]);
    }
}
