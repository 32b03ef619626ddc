// A plain normaliser with shared environments and closures, for the forms of the benchmark's call. It evaluates and reads back as
// specs/Evaluation and specs/NormalForms of cf_term say, with the same steps, nest and order, and prints what cf_normalise does.
use std::process::ExitCode;
use std::rc::Rc;

/// Terms; variables are de Bruijn indices.
enum Term {
    Var(u32),
    UnitTy,
    Unit,
    NatTy,
    Zero,
    Suc(Rc<Term>),
    Lam(Rc<Term>, Rc<Term>),
    App(Rc<Term>, Rc<Term>),
    NatRec(Rc<Term>, Rc<Term>, Rc<Term>, Rc<Term>),
}

/// Values; variables are levels.
enum Value {
    Level(u32),
    UnitTy,
    Unit,
    NatTy,
    Zero,
    Suc(Rc<Value>),
    Lam(Rc<Value>, Env, Rc<Term>),
    App(Rc<Value>, Rc<Value>),
    NatRec(Env, Rc<Term>, Rc<Term>, Rc<Term>, Rc<Value>),
}

/// A shared list of values, the innermost variable's first.
type Env = Option<Rc<Cell>>;

struct Cell {
    value: Rc<Value>,
    rest: Env,
}

fn push(env: &Env, value: Rc<Value>) -> Env {
    Some(Rc::new(Cell { value, rest: env.clone() }))
}

fn get(env: &Env, index: u32) -> Rc<Value> {
    let mut cell = env.as_ref().expect("a variable in scope");
    for _ in 0..index {
        cell = cell.rest.as_ref().expect("a variable in scope");
    }
    cell.value.clone()
}

#[derive(Debug)]
enum End {
    Spent,
    Deep,
}

struct Steps {
    left: u64,
}

impl Steps {
    /// Takes a step, and answers the nest of what follows it.
    fn step(&mut self, nest: u32) -> Result<u32, End> {
        if self.left == 0 {
            return Err(End::Spent);
        }
        if nest == 0 {
            return Err(End::Deep);
        }
        self.left -= 1;
        Ok(nest - 1)
    }

    fn evaluate(&mut self, env: &Env, term: &Term, nest: u32) -> Result<Rc<Value>, End> {
        Ok(Rc::new(match term {
            Term::Var(index) => return Ok(get(env, *index)),
            Term::UnitTy => Value::UnitTy,
            Term::Unit => Value::Unit,
            Term::NatTy => Value::NatTy,
            Term::Zero => Value::Zero,
            Term::Suc(n) => Value::Suc(self.evaluate(env, n, nest)?),
            Term::Lam(domain, body) => Value::Lam(self.evaluate(env, domain, nest)?, env.clone(), body.clone()),
            Term::App(function, argument) => {
                let function = self.evaluate(env, function, nest)?;
                let argument = self.evaluate(env, argument, nest)?;
                return self.apply(function, argument, nest);
            }
            Term::NatRec(motive, zero, suc, n) => {
                let n = self.evaluate(env, n, nest)?;
                return self.recursion(env, [motive, zero, suc], n, nest);
            }
        }))
    }

    fn apply(&mut self, function: Rc<Value>, argument: Rc<Value>, nest: u32) -> Result<Rc<Value>, End> {
        match &*function {
            Value::Lam(_, env, body) => {
                let nest = self.step(nest)?;
                self.evaluate(&push(env, argument), body, nest)
            }
            _ => Ok(Rc::new(Value::App(function, argument))),
        }
    }

    fn recursion(&mut self, env: &Env, [motive, zero, suc]: [&Rc<Term>; 3], n: Rc<Value>, nest: u32) -> Result<Rc<Value>, End> {
        match &*n {
            Value::Zero => {
                let nest = self.step(nest)?;
                self.evaluate(env, zero, nest)
            }
            Value::Suc(m) => {
                let nest = self.step(nest)?;
                let function = self.evaluate(env, suc, nest)?;
                let function = self.apply(function, m.clone(), nest)?;
                let rest = self.recursion(env, [motive, zero, suc], m.clone(), nest)?;
                self.apply(function, rest, nest)
            }
            _ => Ok(Rc::new(Value::NatRec(env.clone(), motive.clone(), zero.clone(), suc.clone(), n))),
        }
    }

    /// Writes a value in a context of `depth` variables. Each node takes a step; a kept part is evaluated first, at the full nest.
    fn read_back(&mut self, value: &Value, depth: u32, nest: u32) -> Result<Rc<Term>, End> {
        if self.left == 0 {
            return Err(End::Spent);
        }
        self.left -= 1;
        Ok(Rc::new(match value {
            Value::Level(level) => Term::Var(depth - 1 - level),
            Value::UnitTy => Term::UnitTy,
            Value::Unit => Term::Unit,
            Value::NatTy => Term::NatTy,
            Value::Zero => Term::Zero,
            Value::Suc(n) => Term::Suc(self.read_back(n, depth, nest)?),
            Value::Lam(domain, env, body) => {
                let domain = self.read_back(domain, depth, nest)?;
                let inner = push(env, Rc::new(Value::Level(depth)));
                let body = self.evaluate(&inner, body, nest)?;
                Term::Lam(domain, self.read_back(&body, depth + 1, nest)?)
            }
            Value::App(function, argument) => {
                let function = self.read_back(function, depth, nest)?;
                Term::App(function, self.read_back(argument, depth, nest)?)
            }
            Value::NatRec(env, motive, zero, suc, n) => {
                let mut kept = |t: &Term| {
                    let value = self.evaluate(env, t, nest)?;
                    self.read_back(&value, depth, nest)
                };
                let (motive, zero, suc) = (kept(motive)?, kept(zero)?, kept(suc)?);
                Term::NatRec(motive, zero, suc, self.read_back(n, depth, nest)?)
            }
        }))
    }

    fn normalise(&mut self, term: &Term, nest: u32) -> Result<Rc<Term>, End> {
        let value = self.evaluate(&None, term, nest)?;
        self.read_back(&value, 0, nest)
    }
}

fn lam(domain: Term, body: Term) -> Term {
    Term::Lam(Rc::new(domain), Rc::new(body))
}

fn app(function: Term, argument: Term) -> Term {
    Term::App(Rc::new(function), Rc::new(argument))
}

/// `\(x : Unit). natrec (\(k : Nat). Unit) x (\(k : Nat). \(r : Unit). f r) #16`
fn sixteen_times(f: Term) -> Term {
    let step = lam(Term::NatTy, lam(Term::UnitTy, app(f, Term::Var(0))));
    let number = (0..16).fold(Term::Zero, |n, _| Term::Suc(Rc::new(n)));
    let motive = lam(Term::NatTy, Term::UnitTy);
    lam(Term::UnitTy, Term::NatRec(Rc::new(motive), Rc::new(Term::Var(0)), Rc::new(step), Rc::new(number)))
}

fn main() -> ExitCode {
    let Some(levels) = std::env::args().nth(1).map_or(Some(3), |word| word.parse::<u32>().ok()) else {
        return ExitCode::from(1);
    };
    let function = (0..levels).fold(lam(Term::UnitTy, Term::Var(0)), |f, _| sixteen_times(f));
    let mut steps = Steps { left: 1_000_000_000 };
    match steps.normalise(&app(function, Term::Unit), 1_000) {
        Ok(_) => {
            println!("{} steps are left", steps.left);
            ExitCode::SUCCESS
        }
        Err(end) => {
            eprintln!("{end:?}");
            ExitCode::from(1)
        }
    }
}
