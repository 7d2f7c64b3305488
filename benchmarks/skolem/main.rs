// Times `skolemize` on the normal forms of made-up formulas.
#![tactic(auto)]

use formula_nnf::{Nnf, nnf};
use plain_types::{Mem, NoMemory, Text, Texts};
use signature::{Signature, Symbol, SymbolKind};
use skolem::{MatrixEnd, skolemize};
use std::alloc::Global;
use std::io;
use std::time::Instant;
use tptp_tree::{AnnotatedList, Formula, FormulaBox, Formulas, Problem, TreeTerm, TreeTerms};

fn name(alloc: Global, letter: &[u8], number: u32) -> Mem<Text> {
    let digits = number.to_string(alloc)?;
    let mut bytes = Vec::new(alloc);
    bytes.extend_from_slice(letter)?;
    bytes.extend_from_slice(digits.as_bytes())?;
    Ok(Text::from_vec(bytes))
}

fn names(alloc: Global, letter: &[u8], count: u32) -> Mem<Texts> {
    let mut all = Texts::new(alloc);
    for number in 0..count {
        all.push(name(alloc, letter, number)?)?;
    }
    Ok(all)
}

fn one(alloc: Global, letter: &[u8], number: u32) -> Mem<Texts> {
    let mut all = Texts::new(alloc);
    all.push(name(alloc, letter, number)?)?;
    Ok(all)
}

fn p(alloc: Global, positive: bool, variable: Text) -> Mem<Formula> {
    let mut terms = TreeTerms::new(alloc);
    terms.push(TreeTerm::Var(variable))?;
    let atom = Formula::Pred(Text::from_slice(alloc, b"p")?, terms);
    if positive {
        return Ok(atom);
    }
    Ok(Formula::Not(FormulaBox::new(alloc, atom)?))
}

fn r(alloc: Global, left: Text, right: Text) -> Mem<Formula> {
    let mut terms = TreeTerms::new(alloc);
    terms.push(TreeTerm::Var(left))?;
    terms.push(TreeTerm::Var(right))?;
    Ok(Formula::Pred(Text::from_slice(alloc, b"r")?, terms))
}

fn all_p(alloc: Global, letter: &[u8], count: u32) -> Mem<Formula> {
    let mut forms = Formulas::new(alloc);
    for number in 0..count {
        forms.push(p(alloc, true, name(alloc, letter, number)?)?)?;
    }
    Ok(Formula::And(forms))
}

fn two(alloc: Global, first: Formula, second: Formula, all: bool) -> Mem<Formula> {
    let mut forms = Formulas::new(alloc);
    forms.push(first)?;
    forms.push(second)?;
    Ok(if all { Formula::And(forms) } else { Formula::Or(forms) })
}

// `! [X0, ..] : (p(X0) & ..)`
fn listed_all(alloc: Global, count: u32) -> Mem<Formula> {
    Ok(Formula::All(names(alloc, b"X", count)?, FormulaBox::new(alloc, all_p(alloc, b"X", count)?)?))
}

// `? [X0, ..] : (p(X0) & ..)`
fn listed_some(alloc: Global, count: u32) -> Mem<Formula> {
    Ok(Formula::Ex(names(alloc, b"X", count)?, FormulaBox::new(alloc, all_p(alloc, b"X", count)?)?))
}

// `! [X0, ..] : ? [Y] : (p(X0) & .. & p(Y))`
fn wide(alloc: Global, count: u32) -> Mem<Formula> {
    let body = two(alloc, all_p(alloc, b"X", count)?, p(alloc, true, name(alloc, b"Y", 0)?)?, true)?;
    let inner = Formula::Ex(one(alloc, b"Y", 0)?, FormulaBox::new(alloc, body)?);
    Ok(Formula::All(names(alloc, b"X", count)?, FormulaBox::new(alloc, inner)?))
}

// `! [X0] : ! [X1] : .. (p(X0) & ..)`
fn nested_all(alloc: Global, count: u32) -> Mem<Formula> {
    let mut form = all_p(alloc, b"X", count)?;
    for number in 0..count {
        form = Formula::All(one(alloc, b"X", count - 1 - number)?, FormulaBox::new(alloc, form)?);
    }
    Ok(form)
}

// `? [X0] : ? [X1] : .. (p(X0) & ..)`
fn nested_some(alloc: Global, count: u32) -> Mem<Formula> {
    let mut form = all_p(alloc, b"X", count)?;
    for number in 0..count {
        form = Formula::Ex(one(alloc, b"X", count - 1 - number)?, FormulaBox::new(alloc, form)?);
    }
    Ok(form)
}

// `! [X0] : (p(X0) & ? [Y0] : (r(X0,Y0) & ! [X1] : ..))`
fn alternating(alloc: Global, count: u32) -> Mem<Formula> {
    let mut form = Formula::True;
    for place in 0..count {
        let number = count - 1 - place;
        let atom = r(alloc, name(alloc, b"X", number)?, name(alloc, b"Y", number)?)?;
        let body = two(alloc, atom, form, true)?;
        let some = Formula::Ex(one(alloc, b"Y", number)?, FormulaBox::new(alloc, body)?);
        let atom = p(alloc, true, name(alloc, b"X", number)?)?;
        let body = two(alloc, atom, some, true)?;
        form = Formula::All(one(alloc, b"X", number)?, FormulaBox::new(alloc, body)?);
    }
    Ok(form)
}

// the conjunction of as many `! [X] : (p(X) => ? [Y] : r(X,Y))`
fn implications(alloc: Global, count: u32) -> Mem<Formula> {
    let mut forms = Formulas::new(alloc);
    for _ in 0..count {
        let atom = r(alloc, name(alloc, b"X", 0)?, name(alloc, b"Y", 0)?)?;
        let some = Formula::Ex(one(alloc, b"Y", 0)?, FormulaBox::new(alloc, atom)?);
        let body = two(alloc, p(alloc, false, name(alloc, b"X", 0)?)?, some, false)?;
        forms.push(Formula::All(one(alloc, b"X", 0)?, FormulaBox::new(alloc, body)?))?;
    }
    Ok(Formula::And(forms))
}

fn symbols(alloc: Global) -> Mem<Signature> {
    let problem = Problem {
        formulas: AnnotatedList::new(alloc),
    };
    let mut signature = Signature::of_problem(alloc, &problem)?;
    signature.add(Symbol { kind: SymbolKind::Predicate, name: Text::from_slice(alloc, b"p")?, arity: 1 })?;
    signature.add(Symbol { kind: SymbolKind::Predicate, name: Text::from_slice(alloc, b"r")?, arity: 2 })?;
    Ok(signature)
}

fn worked(alloc: Global, form: &Nnf<'_>) -> Result<usize, MatrixEnd> {
    let signature = symbols(alloc)?;
    let made = skolemize(alloc, form, &signature)?;
    Ok(made.arities.len())
}

fn time(rt: &HostRuntime, what: &str, formula: Mem<Formula>) -> io::Result<()> {
    let alloc = rt.alloc();
    let Ok(formula) = formula else {
        println!(rt; "{what}: no memory")?;
        return Ok(());
    };
    let Ok(form) = nnf(alloc, &formula, true) else {
        println!(rt; "{what}: no memory")?;
        return Ok(());
    };
    let start = Instant::now(rt)?;
    let number = worked(alloc, &form);
    let time = start.elapsed(rt)?.as_micros();
    match number {
        Ok(number) => println!(rt; "{what}: {number} symbols, {time} microseconds")?,
        Err(_) => println!(rt; "{what}: no matrix")?,
    }
    Ok(())
}

fn main(rt: HostRuntime) -> io::Result<()> {
    let alloc = rt.alloc();
    time(&rt, "1,000 implications", implications(alloc, 1000))?;
    time(&rt, "2,000 implications", implications(alloc, 2000))?;
    time(&rt, "10,000 implications", implications(alloc, 10000))?;
    time(&rt, "listed all 2,000", listed_all(alloc, 2000))?;
    time(&rt, "listed some 200", listed_some(alloc, 200))?;
    time(&rt, "listed some 2,000", listed_some(alloc, 2000))?;
    time(&rt, "1,000 arguments", wide(alloc, 1000))?;
    time(&rt, "2,000 arguments", wide(alloc, 2000))?;
    time(&rt, "nested all 500", nested_all(alloc, 500))?;
    time(&rt, "nested some 50", nested_some(alloc, 50))?;
    time(&rt, "nested some 100", nested_some(alloc, 100))?;
    time(&rt, "alternating 50", alternating(alloc, 50))?;
    time(&rt, "alternating 100", alternating(alloc, 100))?;
    Ok(())
}
