//! Programs as trees, so that tests need not count nodes and ends by hand.

use crate::program::{ASG, DLY, IF, IN, NO_PARENT, OUT, PAR, SEQ, WHL};

#[derive(Clone, Debug)]
pub enum Statement {
    Seq(Vec<Statement>),
    Par(Vec<Statement>),
    /// Variable, expression.
    Asg(u16, u16),
    /// Channel, variable.
    In(u16, u16),
    /// Channel, expression.
    Out(u16, u16),
    /// Condition, one or two children.
    If(u16, Vec<Statement>),
    /// Condition, child.
    Whl(u16, Box<Statement>),
    Dly,
}

impl Statement {
    /// The node list with this statement as node 0.
    pub fn nodes(&self) -> Vec<u16> {
        let mut list = Vec::new();
        self.append(NO_PARENT, &mut list);
        list
    }

    fn append(&self, parent: u16, list: &mut Vec<u16>) {
        let none: &[Statement] = &[];
        let (kind, a, b, children) = match self {
            Statement::Seq(children) => (SEQ, 0, 0, &children[..]),
            Statement::Par(children) => (PAR, 0, 0, &children[..]),
            Statement::Asg(variable, expr) => (ASG, *variable, *expr, none),
            Statement::In(channel, variable) => (IN, *channel, *variable, none),
            Statement::Out(channel, expr) => (OUT, *channel, *expr, none),
            Statement::If(condition, children) => (IF, *condition, 0, &children[..]),
            Statement::Whl(condition, child) => {
                (WHL, *condition, 0, std::slice::from_ref(&**child))
            }
            Statement::Dly => (DLY, 0, 0, none),
        };
        let at = list.len() / 5;
        list.extend([kind, parent, 0, a, b]);
        for child in children {
            child.append(at as u16, list);
        }
        // The end is known only once all below stands in the list.
        list[5 * at + 2] = (list.len() / 5) as u16;
    }
}
