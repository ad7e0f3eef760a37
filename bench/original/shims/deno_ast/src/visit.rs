//! swc's visitor, as far as identifiers are looked for: a node lends its fields in the order of the table.
use crate::nodes::Ident;

pub trait Visit {
    fn visit_ident(&mut self, node: &Ident);
}

pub trait VisitWith<V: Visit + ?Sized> {
    fn visit_with(&self, visitor: &mut V);
}

impl<V: Visit + ?Sized, T: VisitWith<V> + ?Sized> VisitWith<V> for Box<T> {
    fn visit_with(&self, visitor: &mut V) {
        (**self).visit_with(visitor)
    }
}

impl<V: Visit + ?Sized, T: VisitWith<V>> VisitWith<V> for Option<T> {
    fn visit_with(&self, visitor: &mut V) {
        if let Some(node) = self {
            node.visit_with(visitor)
        }
    }
}

impl<V: Visit + ?Sized, T: VisitWith<V>> VisitWith<V> for Vec<T> {
    fn visit_with(&self, visitor: &mut V) {
        for node in self {
            node.visit_with(visitor)
        }
    }
}
