//! Readings R1 to R7: 11 to 17.

use crate::table::*;
use crate::write::*;

pub fn rows(t: &mut Table) {
    r1_layout(t);
    r2_node_by_node(t);
    r3_used_twice_or_never(t);
    r4_r5_names_twice(t);
    r6_depth(t);
    r6_texts(t);
    r7_counts(t);
    r7_nodes_below(t);
}

fn r1_layout(t: &mut Table) {
    t.group("R1, layout");
    t.reads(&[], (11, 0));
    t.reads(&vec![1; 16_385], (11, 0));
    t.reads(&[0], (11, 0));
    t.reads(&[1, 3, 1], (11, 0));
    t.reads(&[1, 3, 2, 1], (11, 0));
    t.reads(&[1, 3, 0], (11, 0));
    t.reads(&[1, 3, 1, 1, 1], (11, 0));
    t.reads(&[1, 4, 1, 1, 1], (11, 0));
    t.reads(&[2, 5, 0, 5, 1, 1], (11, 0));
    t.reads(&[u32::MAX, 3, 1, 1], (11, 0));
    t.reads(&[1, 3, u32::MAX, 1], (11, 0));
    t.reads(&join(&vec![vec![20]; 1_025]), (11, 0));
    t.reads(&join(&vec![vec![20]; 1_024]), (15, 1));
}

fn r2_node_by_node(t: &mut Table) {
    t.group("R2, node by node");
    // 14 at node 2 comes before 12 at node 3; at one node 12, 13, 14.
    t.reads(&join(&[vec![20], vec![24, 2], vec![99]]), (14, 2));
    t.reads(&join(&[vec![99, 7]]), (12, 1));
    t.reads(&join(&[vec![24, 1, 1]]), (13, 1));
    t.reads(&join(&[vec![24, 1]]), (14, 1));
    t.reads(&join(&[vec![24, 0]]), (14, 1));
    t.reads(&join(&[vec![32], vec![24, 1]]), (14, 2));
    t.reads(&join(&[vec![32], vec![11, 1, 3]]), (13, 2));
    t.reads(&join(&[vec![32], vec![11, 9, 65_536]]), (13, 2));
    t.reads(&join(&[vec![32], vec![5, 4, 5, 1]]), (13, 2));
    t.reads(&join(&[vec![32], vec![5, 4, 1, 1]]), (13, 2));
    t.reads(&join(&[vec![12, 1, 0, 0, 4]]), (13, 1));
    t.reads(&join(&[vec![12, 1, 4, 0]]), (13, 1));
    t.reads(&join(&[vec![12, 1, 0]]), (13, 1));
    t.reads(&join(&[vec![12, 16_384, 0, 0]]), (13, 1));
    t.reads(&join(&[vec![31, 2_147_483_648]]), (13, 1));
    for kind in [0, 7, 8, 9, 13, 14, 16, 19, 47, u32::MAX] {
        t.reads(&join(&[vec![kind]]), (12, 1));
    }
}

fn r3_used_twice_or_never(t: &mut Table) {
    t.group("R3, used twice or never");
    t.reads(&join(&[vec![20], vec![25, 1, 1], vec![6, 2], vec![1, 3]]), (15, 1));
    t.reads(&join(&[vec![20], vec![20], vec![6, 2], vec![1, 3]]), (15, 1));
    t.reads(&join(&[vec![1], vec![1]]), (15, 1));
    t.reads(&join(&[vec![20]]), (15, 1));
    t.reads(&join(&[vec![20], vec![6, 1]]), (15, 2));
}

fn r4_r5_names_twice(t: &mut Table) {
    t.group("R4 and R5, names twice");
    t.reads(&doc(vec![given(&[A, A])]), (16, 1));
    t.reads(&doc(vec![given(&[A]), given(&[B, A])]), (16, 2));
    let declared = |id| plain_axiom(vec![decl(int(), &[id])]);
    let twice = doc(vec![declared(A), declared(A)]);
    t.reads(&twice, (16, nth(&twice, 11, 1)));
    let in_one = doc(vec![plain_schema(1, vec![decl(int(), &[A]), decl(int(), &[B, A])])]);
    t.reads(&in_one, (16, nth(&in_one, 11, 1)));
    // Document order does not matter: the second writing by node number.
    let nodes = [vec![2, A], vec![2, A], vec![1, 2, 1]];
    t.reads(&join(&nodes), (16, 2));
    let parameters = doc(vec![schema(1, &[X, X], text(truth(), vec![]))]);
    t.reads(&parameters, (16, nth(&parameters, 4, 0)));
    let parameters = doc(vec![abbreviation(A, &[X, X], int())]);
    t.reads(&parameters, (16, nth(&parameters, 5, 0)));
    let defined = || plain_schema(1, vec![]);
    let schemas = doc(vec![defined(), defined()]);
    t.reads(&schemas, (16, nth(&schemas, 4, 1)));
    // A deeper Decl is no Axiom Decl; a parameter may be the name itself.
    let deeper = forall(text(truth(), vec![decl(int(), &[A])]), truth());
    let outer = axiom(text(deeper, vec![decl(int(), &[A])]));
    t.reads(&doc(vec![outer]), (0, 0));
    t.reads(&doc(vec![abbreviation(A, &[A], reference(A))]), (0, 0));
}

fn r6_depth(t: &mut Table) {
    t.group("R6, depth");
    // Document, Constraint, so many nots, true.
    let nested = |n: usize| (0..n).fold(truth(), |p, _| not(p));
    t.reads(&doc(vec![constraint(nested(9))]), (0, 0));
    t.reads(&doc(vec![constraint(nested(10))]), (17, 1));
    t.reads(&doc(vec![constraint(nested(11))]), (17, 1));
}

fn r6_texts(t: &mut Table) {
    t.group("R6, Texts");
    // Texts inside the predicates of Texts.
    let inside =
        |n: usize| (1..n).fold(text(truth(), vec![]), |t, _| text(forall(t, truth()), vec![]));
    t.reads(&doc(vec![axiom(inside(4))]), (0, 0));
    let five = doc(vec![axiom(inside(5))]);
    t.reads(&five, (17, nth(&five, 10, 0)));
    // A body beside a Text is not inside that Text.
    let beside = (0..6).fold(truth(), |p, _| forall(text(truth(), vec![]), p));
    t.reads(&doc(vec![constraint(beside)]), (0, 0));
}

fn r7_counts(t: &mut Table) {
    t.group("R7, counts");
    let lines = vec![decl(int(), &[A, B, C, D]), decl(int(), &[X, Y]), decl(int(), &[100])];
    let seven = doc(vec![plain_schema(1, lines)]);
    t.reads(&seven, (17, nth(&seven, 11, 2)));
    let givens = |n: u32| (0..n).map(|i| given(&[4 + 4 * i])).collect::<Vec<_>>();
    t.reads(&doc(givens(64)), (0, 0));
    t.reads(&doc(givens(65)), (17, 65));
}

fn r7_nodes_below(t: &mut Table) {
    t.group("R7, nodes below");
    // A relation between two sets: 1 + 6 sets of three numbers make 25 nodes.
    let numbers = |n: usize| set((0..n).map(|i| number(i as u32)).collect());
    let left = || set((0..5).map(|_| numbers(3)).collect());
    let fits = doc(vec![constraint(equal(left(), numbers(2)))]);
    t.reads(&fits, (0, 0));
    let over = doc(vec![constraint(equal(left(), numbers(3)))]);
    t.reads(&over, (17, 25));
}
