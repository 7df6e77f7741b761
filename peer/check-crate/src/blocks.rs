//! Texts with procedural blocks: sound ones, ones near each limit, and ones
//! damaged in every way that the papers name.

use crate::limits::{DEFINITIONS, STATEMENTS};
use crate::random::Random;
use crate::texts::{
    any_token, assignment, constants, damage_tokens, different_names, expression, lay_out, name,
    number, state, tokens, Size, Tokens,
};
use floesedge_peer::limits::{MAX_RECORDS, MAX_STATEMENTS};

/// A text of a random family with blocks.
pub fn text(random: &mut Random) -> Vec<u8> {
    match random.below(38) {
        0..=10 => sound(random, Size::Small),
        11..=13 => sound(random, Size::Large),
        14..=16 => damaged(random, damage_pairing),
        17..=20 => damaged(random, damage_inside),
        21..=28 => damaged(random, damage_outside),
        29 => damaged(random, damage_any),
        30..=33 => graph(random),
        34 => mess(random),
        35 => headers(random),
        36 => slips(random),
        _ => limits(random),
    }
}

/// A deck in units: single statements, and blocks with all their statements.
struct Deck {
    units: Vec<Vec<Tokens>>,
    constants: Vec<String>,
    states: Vec<String>,
    /// Assigned outside of all blocks.
    assigned: Vec<String>,
    outputs: Vec<String>,
    /// Set inside a block and no output.
    inner: Vec<String>,
}

impl Deck {
    /// The units laid out in lines, statement after statement.
    fn lay_out(&self, random: &mut Random) -> Vec<u8> {
        lay_out(random, &self.units.concat(), false)
    }

    /// The unit of some block, if there is any left.
    fn block(&self, random: &mut Random) -> Option<usize> {
        let is_block = |unit: &[Tokens]| unit.len() > 1 && is_header(&unit[0]);
        let blocks: Vec<usize> = (0..self.units.len())
            .filter(|&i| is_block(&self.units[i]))
            .collect();
        (!blocks.is_empty()).then(|| random.pick(&blocks))
    }

    /// A name of any sort, or a fresh one.
    fn any_name(&self, random: &mut Random) -> String {
        let sorts = [
            &self.constants,
            &self.states,
            &self.assigned,
            &self.outputs,
            &self.inner,
        ];
        let names = random.pick(&sorts);
        some_of(random, names)
    }

    /// A name that units give: assigned outside, or an output.
    fn given(&self, random: &mut Random) -> String {
        let sorts = [&self.assigned, &self.outputs];
        let names = random.pick(&sorts);
        some_of(random, names)
    }

    /// A name that is set inside a block.
    fn set_inside(&self, random: &mut Random) -> String {
        let sorts = [&self.outputs, &self.inner];
        let names = random.pick(&sorts);
        some_of(random, names)
    }
}

/// One of some names, or a fresh one if there are none.
fn some_of(random: &mut Random, names: &[String]) -> String {
    if names.is_empty() {
        name(random)
    } else {
        random.of(names).clone()
    }
}

// Headers.

/// Whether a statement begins as a header does.
fn is_header(list: &Tokens) -> bool {
    list.first().is_some_and(|token| token == "PROCED")
}

/// A header.
fn header(random: &mut Random, outputs: &[String], inputs: &[String]) -> Tokens {
    let own = match random.below(4) {
        0 => random.of(outputs).clone(),
        1 => random.of(inputs).clone(),
        _ => name(random),
    };
    let mut list = tokens(&["PROCED"]);
    list.extend(with_commas(outputs));
    list.extend([tokens(&["="]), vec![own], tokens(&["("])].concat());
    list.extend(with_commas(inputs));
    list.push(")".into());
    list
}

/// Names with commas between them.
fn with_commas(names: &[String]) -> Tokens {
    let pairs = names.iter().map(|name| vec![name.clone()]);
    pairs.collect::<Vec<_>>().join(&",".to_string())
}

/// Where the names of a well formed header stand: outputs and inputs.
fn places(list: &Tokens) -> (Vec<usize>, Vec<usize>) {
    let equals = list.iter().position(|token| token == "=");
    let equals = equals.unwrap_or(list.len());
    let last = list.len().saturating_sub(1);
    let outputs = (1..equals).step_by(2).collect();
    let inputs = (equals + 3..last).step_by(2).collect();
    (outputs, inputs)
}

/// One of the outputs or inputs of a well formed header.
fn name_of(random: &mut Random, list: &Tokens, places: &[usize]) -> String {
    if places.is_empty() {
        name(random)
    } else {
        list[random.pick(places)].clone()
    }
}

// Sound decks.

/// A deck without fault, unless leaving out a long statement made one.
fn sound(random: &mut Random, size: Size) -> Vec<u8> {
    let deck = deck(random, size);
    deck.lay_out(random)
}

/// A sortable deck with blocks.
fn deck(random: &mut Random, size: Size) -> Deck {
    let (blocks, most) = match size {
        Size::Small => (random.range(1, 4), 3),
        Size::Large => (random.range(6, 60), 8),
    };
    let leaves = random.pick(&[1, 2, 4, 6]);
    // A block and what stands before it take at most 7 names.
    let mut fresh = different_names(random, blocks * 7 + most * 2);
    let count = random.range(1, most);
    let constant_names = fresh.split_off(fresh.len() - count);
    let count = random.below(most);
    let states = fresh.split_off(fresh.len() - count);
    let mut deck = Deck {
        units: vec![vec![constants(random, &constant_names)]],
        constants: constant_names,
        states,
        assigned: Vec::new(),
        outputs: Vec::new(),
        inner: Vec::new(),
    };
    let free = [&deck.constants[..], &deck.states].concat();
    let mut given: Vec<String> = Vec::new();
    for _ in 0..blocks {
        for _ in 0..random.below(3) {
            let name = fresh.pop().unwrap();
            let uses = [&free[..], &given].concat();
            let size = random.range(1, leaves);
            deck.units
                .push(vec![assignment(random, &name, &uses, size)]);
            given.push(name.clone());
            deck.assigned.push(name);
        }
        let first = deck.outputs.len();
        let block = block(random, &mut deck, &mut fresh, (&free, &given), leaves);
        deck.units.push(block);
        given.extend_from_slice(&deck.outputs[first..]);
    }
    let uses = [&free[..], &given].concat();
    for name in deck.states.clone() {
        let size = random.range(1, leaves);
        let list = state(random, &name, &deck.constants, &uses, size);
        deck.units.push(vec![list]);
    }
    match random.below(4) {
        0 => {}
        1 => deck.units.reverse(),
        _ => random.shuffle(&mut deck.units),
    }
    deck
}

/// A block whose inputs are names known without order and given ones, its
/// names noted in the deck.
fn block(
    random: &mut Random,
    deck: &mut Deck,
    fresh: &mut Vec<String>,
    (free, given): (&[String], &[String]),
    leaves: usize,
) -> Vec<Tokens> {
    let count = random.range(1, 3);
    let outputs = fresh.split_off(fresh.len() - count);
    let count = random.below(3);
    let inner = fresh.split_off(fresh.len() - count);
    let mut inputs = Vec::new();
    for _ in 0..random.range(1, 3) {
        let from = if given.is_empty() || random.once_in(4) {
            free
        } else {
            given
        };
        inputs.push(random.of(from).clone());
    }
    let mut targets = [&outputs[..], &inner].concat();
    random.shuffle(&mut targets);
    for _ in 0..random.below(4) {
        let again = random.of(&targets).clone();
        targets.insert(random.below(targets.len() + 1), again);
    }
    let mut uses = [free, &inputs].concat();
    let mut statements = vec![header(random, &outputs, &inputs)];
    for target in targets {
        let size = random.range(1, leaves);
        statements.push(assignment(random, &target, &uses, size));
        uses.push(target);
    }
    statements.push(tokens(&["ENDPRO"]));
    deck.outputs.extend(outputs);
    deck.inner.extend(inner);
    statements
}

// Damage.

/// A deck with one to three damages of a sort.
fn damaged(random: &mut Random, damage: fn(&mut Random, &mut Deck)) -> Vec<u8> {
    let size = random.pick(&[Size::Small, Size::Small, Size::Small, Size::Large]);
    let mut deck = deck(random, size);
    for _ in 0..random.pick(&[1, 1, 1, 2, 3]) {
        damage(random, &mut deck);
    }
    deck.lay_out(random)
}

/// Damage of any sort.
fn damage_any(random: &mut Random, deck: &mut Deck) {
    let damage = random.pick(&[damage_pairing, damage_inside, damage_outside]);
    damage(random, deck);
}

/// Takes away, adds or moves headers and ends.
fn damage_pairing(random: &mut Random, deck: &mut Deck) {
    let Some(at) = deck.block(random) else {
        return;
    };
    let end = tokens(&["ENDPRO"]);
    let header = deck.units[at][0].clone();
    let count = deck.units.len();
    match random.below(8) {
        // A header or an end missing.
        0 => drop(deck.units[at].remove(0)),
        1 => drop(deck.units[at].pop()),
        // One more header or end, anywhere.
        2 => {
            let unit = &mut deck.units[random.below(count)];
            unit.insert(random.below(unit.len() + 1), header);
        }
        3 => {
            let unit = &mut deck.units[random.below(count)];
            unit.insert(random.below(unit.len() + 1), end);
        }
        // A block inside another one, or inside itself.
        4 => {
            let inner = if random.once_in(2) {
                deck.units[at].clone()
            } else {
                deck.units.remove(at)
            };
            let other = deck.block(random).unwrap_or(0);
            if let Some(unit) = deck.units.get_mut(other) {
                let place = random.below(unit.len() + 1);
                unit.splice(place..place, inner);
            }
        }
        // The end before the header.
        5 => deck.units[at].reverse(),
        // An end, or a header, behind other units.
        6 => {
            deck.units[at].pop();
            deck.units.insert(random.range(at, count), vec![end]);
        }
        _ => {
            deck.units[at].remove(0);
            deck.units.insert(random.below(at + 1), vec![header]);
        }
    }
}

/// Puts into a block what may not stand inside, or breaks what its header says.
fn damage_inside(random: &mut Random, deck: &mut Deck) {
    let Some(at) = deck.block(random) else {
        return;
    };
    let (any, given, fresh) = (deck.any_name(random), deck.given(random), name(random));
    let lone = lone_statement(random, deck);
    let unit = &mut deck.units[at];
    let last = unit.len() - 1;
    let (outputs, inputs) = places(&unit[0]);
    let output = name_of(random, &unit[0], &outputs);
    let input = name_of(random, &unit[0], &inputs);
    let place = random.range(1, last);
    let inside = (last > 1).then(|| random.range(1, last - 1));
    match random.below(18) {
        // An output that is not assigned.
        0 => unit.retain(|list| list[0] != output || is_header(list)),
        1 => unit[0].splice(1..1, [fresh, ",".into()]).for_each(drop),
        2 => unit[0].splice(1..1, [any, ",".into()]).for_each(drop),
        3 => drop(unit.drain(1..last)),
        // An output named twice.
        4 => unit[0].splice(1..1, [output, ",".into()]).for_each(drop),
        // An output that is an input too.
        5 => unit[0].splice(1..1, [input, ",".into()]).for_each(drop),
        6 => {
            let behind = unit[0].len() - 1;
            let more = [",".into(), output];
            unit[0].splice(behind..behind, more).for_each(drop);
        }
        // An input assigned.
        7 | 8 => unit.insert(place, assignment(random, &input, &[], 1)),
        // A state or constants inside.
        9 => unit.insert(place, state(random, &fresh, &[], &[any], 2)),
        10 => unit.insert(place, constants(random, &[fresh, any])),
        11 => unit.insert(place, lone),
        // An output made a state or a constant alone.
        12 => {
            unit.retain(|list| list[0] != output || is_header(list));
            let made = if random.once_in(2) {
                state(random, &output, &[], &[any], 1)
            } else {
                constants(random, &[output])
            };
            unit.insert(1, made);
        }
        // A use of what may not be used, at times by the first setting itself.
        13 | 14 => {
            let used = if random.once_in(2) { given } else { any };
            if let Some(inside) = inside {
                unit[inside].extend(["+".into(), used]);
            }
        }
        15 => {
            if let Some(inside) = inside {
                let own = unit[inside][0].clone();
                unit[inside].extend(["-".into(), own]);
            }
        }
        // Inner statements in another order, or one missing.
        16 => {
            let other = random.range(1, last);
            if let Some(inside) = inside.filter(|_| other < last) {
                unit.swap(inside, other);
            }
        }
        _ => {
            if let Some(inside) = inside {
                unit.remove(inside);
            }
        }
    }
}

/// A copy of some single statement.
fn lone_statement(random: &mut Random, deck: &Deck) -> Tokens {
    let lone: Vec<&Vec<Tokens>> = deck.units.iter().filter(|unit| unit.len() == 1).collect();
    if lone.is_empty() {
        tokens(&["ENDPRO"])
    } else {
        random.of(&lone)[0].clone()
    }
}

/// Doubles, undefined names, initials and loops, what stands inside kept good.
fn damage_outside(random: &mut Random, deck: &mut Deck) {
    let Some(at) = deck.block(random) else {
        return;
    };
    let (any, given, fresh) = (deck.any_name(random), deck.given(random), name(random));
    let set = deck.set_inside(random);
    let inner = some_of(random, &deck.inner);
    let output = some_of(random, &deck.outputs);
    let count = deck.units.len();
    let anywhere = random.below(count + 1);
    let (outputs, inputs) = places(&deck.units[at][0]);
    let behind = deck.units[at][0].len() - 1;
    match random.below(17) {
        // A name that is set inside, defined outside too.
        0 | 1 => {
            let list = match random.below(3) {
                0 => constants(random, &[fresh, set]),
                1 => state(random, &set, &[], &[], 1),
                _ => assignment(random, &set, &[], 1),
            };
            deck.units.insert(anywhere, vec![list]);
        }
        // The same inside another block, once or twice, or a whole block twice.
        2 | 3 => {
            let used = if random.once_in(3) { any } else { set };
            let first = assignment(random, &used, &[], 1);
            let again = assignment(random, &used, std::slice::from_ref(&used), 2);
            let more = [first, again][..random.range(1, 2)].to_vec();
            deck.units[at].splice(1..1, more).for_each(drop);
        }
        4 => deck.units.insert(anywhere, deck.units[at].clone()),
        // An inner name used outside.
        5 | 6 => {
            let (a, b) = (name(random), random.pick(&["+", "-", "*"]));
            let list = match random.below(3) {
                0 => tokens(&[&a, "=", "INTGRL", "(", "1", ",", &inner, ")"]),
                1 => tokens(&[&a, "=", "INTGRL", "(", &inner, ",", "TIME", ")"]),
                _ => tokens(&[&a, "=", &inner, b, &given]),
            };
            deck.units.insert(anywhere, vec![list]);
        }
        // An output, or another name, as an initial value.
        7..=9 => {
            let initial = if random.once_in(3) { any } else { output };
            let list = tokens(&[&fresh, "=", "INTGRL", "(", &initial, ",", "1", ")"]);
            deck.units.insert(anywhere, vec![list]);
        }
        // One more input: undefined, inner, or one that may make a loop.
        10 | 11 => {
            let more = [",".into(), if random.once_in(2) { fresh } else { inner }];
            deck.units[at][0]
                .splice(behind..behind, more)
                .for_each(drop);
        }
        12 => {
            let more = [",".into(), given];
            deck.units[at][0]
                .splice(behind..behind, more)
                .for_each(drop);
        }
        // A loop of a block and one more assignment, or one that may be there.
        13 => {
            let own = name_of(random, &deck.units[at][0], &outputs);
            let list = assignment(random, &fresh, &[own], 2);
            deck.units[at][0]
                .splice(behind..behind, [",".into(), fresh])
                .for_each(drop);
            deck.units.insert(anywhere, vec![list]);
        }
        14 | 15 => {
            let own = name_of(random, &deck.units[at][0], &outputs);
            let input = name_of(random, &deck.units[at][0], &inputs);
            let single = |list: &Tokens| list[0] == input && list[2] != "INTGRL";
            for unit in deck.units.iter_mut().filter(|unit| unit.len() == 1) {
                if single(&unit[0]) {
                    unit[0].extend(["+".into(), own.clone()]);
                }
            }
        }
        // A unit missing.
        _ => drop(deck.units.remove(random.below(count))),
    }
}

// Graphs.

/// Units of few names with random uses, the inside of each block good, so that
/// loops through blocks and what hangs behind them are common.
fn graph(random: &mut Random) -> Vec<u8> {
    let count = random.pick(&[2, 3, 5, 8, 30]);
    let mut rank: Vec<usize> = (0..count).collect();
    random.shuffle(&mut rank);
    let wrong = random.pick(&[2, 3, 10, 1000]);
    let mut text = String::from("CONST K=2\n");
    for own in rank {
        let used = |random: &mut Random| {
            let most = if random.once_in(wrong) { count } else { own };
            match random.below(most + 1) {
                0 => "K".to_string(),
                rank if rank == own + 1 => "K".to_string(),
                rank => format!("{}{}", random.pick(&["P", "Q"]), rank - 1),
            }
        };
        let (a, b) = (used(random), used(random));
        let second = match random.below(4) {
            0 => format!(
                "PROCED P{own},Q{own}=F({a},{b})\nP{own}={a}+{b}*K\nQ{own}=P{own}\nENDPRO\n"
            ),
            1 => {
                format!("PROCED Q{own}=F({a},{b})\nT{own}={a}\nQ{own}=T{own}\nENDPRO\nP{own}={b}\n")
            }
            2 => {
                format!("PROCED Q{own},P{own}=F({a})\nP{own}=1\nQ{own}=K\nP{own}=Q{own}\nENDPRO\n")
            }
            _ => format!("P{own}={a}+{b}\nQ{own}=INTGRL(K,P{own}-{a})\n"),
        };
        text.push_str(&second);
    }
    text.into_bytes()
}

/// Statements of few names in any order, so that everything goes wrong at once.
fn mess(random: &mut Random) -> Vec<u8> {
    const NAMES: [&str; 6] = ["A", "B", "C", "D", "K", "X"];
    let paired = random.once_in(2);
    let mut open = false;
    let mut text = String::from(random.pick(&["", "CONST K=1\n", "CONST C=1\nX=INTGRL(C,A)\n"]));
    for _ in 0..random.range(1, 14) {
        let n: Vec<&str> = (0..4).map(|_| random.pick(&NAMES)).collect();
        let line = match random.below(9) {
            0 | 1 if !(paired && open) => {
                open = true;
                match random.below(3) {
                    0 => format!("PROCED {},{}={}({})", n[0], n[1], n[2], n[3]),
                    _ => format!("PROCED {}=F({})", n[0], n[3]),
                }
            }
            2 | 3 if !paired || open => {
                open = false;
                "ENDPRO".to_string()
            }
            4 if random.once_in(3) => format!("CONST {}=1", n[0]),
            5 if random.once_in(3) => format!("{}=INTGRL({},{})", n[0], n[1], n[2]),
            6 => format!("{}={}", n[0], n[1]),
            7 => format!("{}=1", n[0]),
            _ => format!("{}={}+{}", n[0], n[1], n[2]),
        };
        text.push_str(&line);
        text.push('\n');
    }
    if paired && open {
        text.push_str("ENDPRO\n");
    }
    text.into_bytes()
}

/// Headers and ends alone, in any order.
fn headers(random: &mut Random) -> Vec<u8> {
    let most = random.pick(&[3, 6, 12, MAX_STATEMENTS]);
    let mut text = String::new();
    for i in 0..random.range(1, most) {
        let line = match random.below(7) {
            0..=2 => format!("PROCED A{i}=F(C)"),
            3 => format!("A{i}=1"),
            _ => "ENDPRO".into(),
        };
        text.push_str(&line);
        text.push_str(random.pick(&["\n", "\n", "...\n\n", "\n*\n", "...\n*\n\n"]));
    }
    text.into_bytes()
}

// Slips.

/// Headers and ends that are good, or just not.
const SLIPS: [&str; 62] = [
    "PROCED",
    "PROCED A",
    "PROCED A=",
    "PROCED A=F",
    "PROCED A=F(",
    "PROCED A=F()",
    "PROCED A=F(C",
    "PROCED A=F(C,",
    "PROCED A=F(C,)",
    "PROCED A=F(,C)",
    "PROCED A=F(C))",
    "PROCED A=F((C))",
    "PROCED A=F(C)D",
    "PROCED A=F(C)+1",
    "PROCED A=F(C),B",
    "PROCED A=F(C)(D)",
    "PROCED A=F(C D)",
    "PROCED A=F(-C)",
    "PROCED A=F(C+D)",
    "PROCED A=F(1)",
    "PROCED A=F(TIME)",
    "PROCED A=F(C,TIME)",
    "PROCED A=F(ENDPRO)",
    "PROCED A=F(INSW)",
    "PROCED A=(C)",
    "PROCED A=F G(C)",
    "PROCED A=F=G(C)",
    "PROCED A=1(C)",
    "PROCED A=TIME(C)",
    "PROCED A=LIMIT(C,D,K)",
    "PROCED A=INTGRL(C,D)",
    "PROCED A=PROCED(C)",
    "PROCED =F(C)",
    "PROCED F(C)",
    "PROCED (C)",
    "PROCED A,=F(C)",
    "PROCED ,A=F(C)",
    "PROCED A,,B=F(C)",
    "PROCED A B=F(C)",
    "PROCED A,B F(C)",
    "PROCED -A=F(C)",
    "PROCED A+B=F(C)",
    "PROCED TIME=F(C)",
    "PROCED A,CONST=F(C)",
    "PROCED A==F(C)",
    "PROCED=1",
    "PROCEDA=F(C)",
    "PROCED PROCED A=F(C)",
    "PROCED A=VALVES7(C)",
    "PROCED A=F(((((((((((((((((C",
    "ENDPRO A",
    "ENDPRO 1",
    "ENDPRO ENDPRO",
    "ENDPRO=1",
    "ENDPRO,",
    "ENDPRO()",
    "ENDPROC",
    "PROCE A=F(C)",
    "ENDPR",
    "A=PROCED",
    "A=ENDPRO+1",
    "CONST ENDPRO=1",
];

/// A sound deck with slips in headers and ends, or with headers from a list.
fn slips(random: &mut Random) -> Vec<u8> {
    let mut deck = deck(random, Size::Small);
    for unit in &mut deck.units {
        if !is_header(&unit[0]) || random.once_in(3) {
            continue;
        }
        let end = unit.len() - 1;
        match random.below(6) {
            0 => unit[end].push(any_token(random)),
            1 | 2 => {
                let mut header = vec![unit[0].clone()];
                damage_tokens(random, &mut header);
                unit.splice(..1, header).for_each(drop);
            }
            3 => {
                let place = random.below(unit[0].len());
                unit[0].swap(place, random.below(end.min(2)));
            }
            _ => unit[0] = vec![random.pick(&SLIPS).to_string()],
        }
    }
    deck.lay_out(random)
}

// Limits.

/// Blocks of just about the most statements, settings or records.
fn limits(random: &mut Random) -> Vec<u8> {
    match random.below(4) {
        0 => many_blocks(random),
        1 => many_settings(random),
        2 => many_records(random),
        _ => many_names(random),
    }
}

/// Just about the most statements in blocks.
fn many_blocks(random: &mut Random) -> Vec<u8> {
    let mut left = STATEMENTS.about(random);
    let mut text = String::from("CONST C=1\n");
    left -= 1;
    while left >= 3 {
        let inside = random.range(1, 4).min(left - 2);
        text.push_str(&format!("PROCED A{left}=F(C)\n"));
        for _ in 0..inside {
            text.push_str(&format!("A{left}=C\n"));
        }
        text.push_str("ENDPRO\n");
        left -= inside + 2;
    }
    for i in 0..left {
        text.push_str(&format!("B{i}=1\n"));
    }
    if random.once_in(4) {
        text = text.replacen("ENDPRO", random.pick(&["D=1", "ENDPRO 1", ""]), 1);
    }
    text.into_bytes()
}

/// Just about the most settings, all that constants leave being such inside a
/// block, most of which set again.
fn many_settings(random: &mut Random) -> Vec<u8> {
    let count = DEFINITIONS.about(random);
    let most = count.min(MAX_STATEMENTS * 3 / 4);
    let constants = count - random.range(most / 2, most - 2);
    let mut text = String::from("CONST C=1\n");
    for part in (1..constants).collect::<Vec<_>>().chunks(7) {
        let list: Vec<String> = part.iter().map(|i| format!("K{i}=2")).collect();
        text.push_str(&format!("PARAM {}\n", list.join(",")));
    }
    text.push_str("PROCED A,B=F(C)\nA=1\nB=2\n");
    for _ in 0..count - constants - 2 {
        let line = random.pick(&["A=A+C\n", "B=A\n", "A=B\n", "B=B-A\n"]);
        text.push_str(line);
    }
    text.push_str(random.pick(&["ENDPRO\n", "ENDPRO\n", "ENDPRO\n", "ENDPRO\nENDPRO\n", ""]));
    text.into_bytes()
}

/// Just about the most records, in blocks that set again.
fn many_records(random: &mut Random) -> Vec<u8> {
    let mut left = random.range(MAX_RECORDS - 2, MAX_RECORDS + 2) - 1;
    let mut text = String::from("CONST C=1\n");
    let mut i = 0;
    while left >= 2 {
        i += 1;
        text.push_str(&format!("PROCED A{i}=F(C)\n"));
        for _ in 0..random.range(1, 5) {
            let part = random.pick(&["+1", "-2", "*3", "+C"]).repeat(32);
            if left >= 256 {
                let rest = format!("...\n {part}").repeat(3);
                text.push_str(&format!("A{i}={}{rest}\n", &part[1..]));
                left -= 256;
            } else if left >= 2 {
                text.push_str(&format!("A{i}=C\n"));
                left -= 2;
            } else {
                break;
            }
        }
        text.push_str("ENDPRO\n");
    }
    if left == 1 {
        text.push_str("CONST D=1\n");
    }
    text.into_bytes()
}

/// Headers of very many names over four lines.
fn many_names(random: &mut Random) -> Vec<u8> {
    let most = random.pick(&[10, 40, 60]);
    let count = random.range(2, most);
    let names: Vec<String> = (0..count).map(|i| format!("N{i:02}")).collect();
    let mut inputs = Vec::new();
    for _ in 0..random.range(1, most) {
        inputs.push(format!("I{}", random.below(9)));
    }
    let outputs = &names[..random.range(1, count.min(30))];
    let mut statements = Vec::new();
    statements.push(header(random, outputs, &inputs));
    for name in &names {
        let mut list = tokens(&[name, "="]);
        list.extend(expression(random, &inputs, 2));
        statements.push(list);
    }
    statements.push(tokens(&["ENDPRO"]));
    for i in 0..random.pick(&[9, 9, 9, 8]) {
        let value = number(random);
        let own = format!("I{i}");
        statements.push(tokens(&[&own, "=", &value]));
    }
    lay_out(random, &statements, false)
}
