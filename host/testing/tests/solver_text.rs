//! What a solver prints, read as a model: every short text on a tiny instance, every
//! form of every model of file A, models of random instances in many forms, damaged
//! texts, recorded outputs of a solver. `support::both` compares every byte of every
//! buffer after each call. Readers that each make one mistake show that the texts tell
//! right from wrong.

mod support;

use std::collections::BTreeMap;
use support::both::solver_text;
use support::hasty::{self, Answer, Mistake, MISTAKES};
use support::models::{feasible_cost, timetables};
use support::{hex, numbers, refused, FILE_A};
use testing::generate::{
    damaged_bytes, damaged_texts, encode, instance, lent, model, printed, scattered, timetable,
    wrapped, Random, Shape,
};
use testing::reference::{self, decode, print_model, Objective};

/// One time and one event: three variables, of which all are true in the only model.
fn tiny() -> Vec<u8> {
    numbers(&[1, 1, 0, 1, 0, 0, 0])
}

const TINY_VARIABLES: usize = 3;

fn variables(file: &[u8]) -> usize {
    let sizes = reference::sizes(file, None).expect("an accepted file");
    sizes.variables as usize
}

/// The answer with a lent model of the length that is wanted, and a store of the same
/// length or one byte more.
fn read(file: &[u8], text: &[u8]) -> Answer {
    let variables = variables(file);
    solver_text(file, text, variables, variables + text.len() % 2)
}

/// What `model` is answered with once it has been read.
fn decoded(file: &[u8], model: &[u8]) -> Answer {
    let (part, cost) = decode(file, model)?;
    Ok((model.to_vec(), part.len(), cost))
}

/// Calls `each` with `prefix` and every string of up to `length` bytes of `alphabet`
/// behind it. Gives how many there were.
fn every_text(
    prefix: &[u8],
    alphabet: &[u8],
    length: usize,
    each: &mut impl FnMut(&[u8]),
) -> usize {
    each(prefix);
    if length == 0 {
        return 1;
    }
    let longer = alphabet.iter().map(|&byte| {
        let text = [prefix, &[byte]].concat();
        every_text(&text, alphabet, length - 1, each)
    });
    1 + longer.sum::<usize>()
}

/// How many of the texts are accepted and refused by 13, 20 and 21.
fn read_every(prefix: &[u8], alphabet: &[u8], length: usize) -> BTreeMap<u32, usize> {
    let file = tiny();
    let mut seen = BTreeMap::new();
    let count = every_text(prefix, alphabet, length, &mut |text| {
        let answer = solver_text(&file, text, TINY_VARIABLES, TINY_VARIABLES);
        let number = answer.err().map_or(0, |refusal| refusal.number);
        *seen.entry(number).or_insert(0) += 1;
    });
    println!("\"{}\": {count} texts, {seen:?}", prefix.escape_ascii());
    assert_eq!(seen.values().sum::<usize>(), count);
    seen
}

#[test]
fn every_short_text_is_read_alike() {
    let seen = read_every(b"", b"vcx 1320-\n", 5);
    assert_eq!(seen.keys().copied().collect::<Vec<_>>(), [20, 21]);
}

#[test]
fn every_short_line_of_values_is_read_alike() {
    let seen = read_every(b"v ", b" 123450-+\r\nvc", 4);
    assert_eq!(seen.keys().copied().collect::<Vec<_>>(), [20, 21]);
}

/// With two of three literals given before.
#[test]
fn every_short_end_of_a_text_is_read_alike() {
    for prefix in [&b"v 1 2"[..], b"v 3\nv 2 "] {
        let seen = read_every(prefix, b" 1230-\nvc", 5);
        assert_eq!(seen.keys().copied().collect::<Vec<_>>(), [0, 13, 20, 21]);
    }
}

/// Every byte at every place of a text that has all parts.
#[test]
fn every_byte_of_a_text_changed_is_read_alike() {
    let text = b"c 1\nv  1 -2 \nov 5\nv 3 0\nv\ns 9";
    let file = tiny();
    assert_eq!(read(&file, text), refused(13, 2));
    for at in 0..text.len() {
        for byte in 0..=u8::MAX {
            let mut changed = text.to_vec();
            changed[at] = byte;
            let _ = read(&file, &changed);
            changed[at] = text[at];
            changed.insert(at, byte);
            let _ = read(&file, &changed);
        }
    }
}

#[test]
fn every_prefix_of_a_text_is_read_alike() {
    let file = include_bytes!("../../schools/toy.instance");
    let model = include_bytes!("../../schools/toy.model");
    let text = wrapped(model, 78);
    let last = text.len() - b" 0\n".len();
    for length in 0..=text.len() {
        assert_eq!(read(file, &text[..length]).is_ok(), length >= last);
    }
}

/// All numbers up to the limit, and some beyond, with and without a minus.
#[test]
fn every_number_is_in_its_range_or_out_of_it() {
    let file = include_bytes!("../../schools/toy.instance");
    let variables = variables(file) as u128;
    let mut numbers: Vec<u128> = (1..=variables + 12).collect();
    for bits in [16, 24, 31, 32, 33, 48, 53, 62, 63, 64, 65, 96, 127] {
        let near = [0, 1, 2, variables - 1, variables, variables + 1];
        numbers.extend(near.map(|more| (1u128 << bits) + more));
    }
    for number in numbers {
        // The lowest variable that is missing then.
        let missing = 1 + u64::from(number == 1);
        let expected = match number <= variables {
            true => refused(21, missing),
            false => refused(20, 2),
        };
        for sign in ["", "-"] {
            assert_eq!(read(file, format!("v {sign}{number}").as_bytes()), expected);
        }
        let padded = format!("v 0{number}");
        assert_eq!(read(file, padded.as_bytes()), refused(20, 2));
    }
}

/// Offsets that need more than two bytes, and more than three.
#[test]
fn long_texts_are_read_alike() {
    let file = tiny();
    let accepted = decoded(&file, &[1, 1, 1]);
    for length in [1 << 16, (1 << 24) + 1] {
        let comment = [b"c".repeat(length), b"\n".to_vec()].concat();
        let lines = b"c\n".repeat(length / 2);
        let spaces = [b"v".to_vec(), b" ".repeat(length)].concat();
        for start in [&comment, &lines] {
            let text = [start, &b"v 1 2 3"[..]].concat();
            assert_eq!(read(&file, &text), accepted);
            let text = [start, &b"v 1 x"[..]].concat();
            assert_eq!(read(&file, &text), refused(20, start.len() as u64 + 4));
        }
        let text = [&spaces, &b"1 2 3"[..]].concat();
        assert_eq!(read(&file, &text), accepted);
        let text = [&spaces, &b"1 2 4"[..]].concat();
        assert_eq!(read(&file, &text), refused(20, length as u64 + 5));
        let digits = [b"v 1 ".to_vec(), b"1".repeat(length)].concat();
        assert_eq!(read(&file, &digits), refused(20, 4));
    }
}

/// The orders of these things.
fn permutations<T: Clone>(things: &[T]) -> Vec<Vec<T>> {
    let Some((first, rest)) = things.split_first() else {
        return vec![Vec::new()];
    };
    let mut all = Vec::new();
    for order in permutations(rest) {
        for at in 0..=order.len() {
            let mut order = order.clone();
            order.insert(at, first.clone());
            all.push(order);
        }
    }
    all
}

/// Literals as a text. Bit i of `breaks` says that a line ends after literal i.
fn in_lines(literals: &[String], breaks: usize, closing: &str, between: &str) -> String {
    let mut text = String::from("v");
    for (at, literal) in literals.iter().enumerate() {
        text += &format!(" {literal}");
        if breaks >> at & 1 == 1 {
            text += &format!("\n{between}v");
        }
    }
    text + closing
}

/// All 16 assignments of file A's variables, in every order of the literals and in
/// every division into lines, with each sort of ending.
#[test]
fn every_form_of_every_model_reads_back() {
    let file = hex(FILE_A);
    let endings = ["", "\n", " 0", " 0\n", "\nv 0\nv\nc 7\n", "  \nc"];
    let mut texts = 0;
    for bits in 0..16 {
        let bytes: Vec<u8> = (0..4).map(|at| bits >> at & 1).collect();
        let expected = decoded(&file, &bytes);
        let signs = bytes.iter().map(|&byte| if byte == 1 { "" } else { "-" });
        let literals = signs
            .enumerate()
            .map(|(at, sign)| format!("{sign}{}", at + 1));
        for order in permutations(&literals.collect::<Vec<_>>()) {
            for breaks in 0..8 {
                for ending in endings {
                    let between = ["", "o 4\n"][texts % 2];
                    let text = in_lines(&order, breaks, ending, between);
                    assert_eq!(read(&file, text.as_bytes()), expected, "{text:?}");
                    texts += 1;
                }
            }
        }
    }
    println!("{texts} texts");
    assert_eq!(texts, 16 * 24 * 8 * 6);
}

/// The model in its own form, in lines, and in forms drawn at random.
fn reads_back(random: &mut Random, file: &[u8], model: &[u8], forms: usize) -> usize {
    let expected = decoded(file, model);
    let mut texts = vec![
        print_model(model),
        scattered(random, model, 78),
        wrapped(model, 2),
        wrapped(model, 78),
        wrapped(model, usize::MAX),
    ];
    texts.extend((0..forms).map(|_| printed(random, model).text()));
    for text in &texts {
        assert_eq!(read(file, text), expected, "{}", text.escape_ascii());
    }
    texts.len()
}

/// Each timetable that keeps the hard constraints has one model; each model has texts
/// that read back as it, with its cost.
#[test]
fn every_model_of_tiny_instances_reads_back() {
    let (mut models, mut texts) = (0, 0);
    let shape = Shape {
        feasible: true,
        ..Shape::tiny()
    };
    for seed in 0..250 {
        let mut random = Random::new(seed);
        let instance = instance(&mut random, &shape);
        let file = encode(&instance);
        for table in timetables(&instance) {
            let Some(cost) = feasible_cost(&file, &table) else {
                continue;
            };
            let model = model(&instance, &table);
            let read = (model.clone(), table.len(), Objective(cost));
            assert_eq!(decoded(&file, &model), Ok(read), "seed {seed}");
            models += 1;
            texts += reads_back(&mut random, &file, &model, 2);
        }
    }
    println!("seeds 0..250: {models} models in {texts} texts");
    assert!(models > 1_000);
}

/// Models of random instances, some of them with bytes changed: these are read back
/// too, and most often refused by 13.
#[test]
fn models_of_random_instances_read_back() {
    let mut seen: BTreeMap<u32, usize> = BTreeMap::new();
    let mut texts = 0;
    for seed in 0..400 {
        let mut random = Random::new(seed);
        let shape = if seed % 3 == 0 {
            Shape::small()
        } else {
            Shape::tiny()
        };
        let soft = random.pick(&[60, 100]);
        let instance = instance(&mut random, &Shape { soft, ..shape });
        let file = encode(&instance);
        let mut model = model(&instance, &timetable(&mut random, &instance));
        for _ in 0..random.below(3) {
            let at = random.below(model.len());
            model[at] ^= 1;
        }
        texts += reads_back(&mut random, &file, &model, 4);
        let number = decoded(&file, &model)
            .err()
            .map_or(0, |refusal| refusal.number);
        *seen.entry(number).or_default() += 1;
    }
    println!("seeds 0..400: {texts} texts, {seen:?}");
    assert!(seen.len() == 2 && seen[&0] > 50 && seen[&13] > 50);
}

/// What clasp printed for a school: four models, one after the other, are more than
/// one; the last one is the best.
#[test]
fn recorded_outputs_are_read() {
    let file = include_bytes!("../../schools/toy.instance");
    let output = include_bytes!("../../recorded/clasp.out");
    let find = |part: &[u8]| {
        let mut windows = output.windows(part.len());
        windows.position(|window| window == part).expect("a part")
    };
    let second = find(b"c Answer: 2\nv ") + b"c Answer: 2\nv ".len();
    assert_eq!(read(file, output), refused(20, second as u64));
    let last = find(b"c Answer: 4\n");
    let (model, part, cost) = read(file, &output[last..]).expect("a model");
    assert_eq!(cost, Objective(3));
    assert_eq!(decode(file, &model), Ok((&model[..part], cost)));
    // The lines in front of the first block are read over, and each block is a model.
    let answers =
        ["1", "2", "3", "4"].map(|number| find(format!("c Answer: {number}\n").as_bytes()));
    for (at, cost) in [6, 5, 4].into_iter().enumerate() {
        let block = &output[answers[at]..answers[at + 1]];
        let text = [&output[..answers[0]], block].concat();
        assert_eq!(
            read(file, &text).map(|(_, _, cost)| cost),
            Ok(Objective(cost))
        );
    }
}

/// An instance's file with a text, mostly damaged, and lengths, mostly those wanted.
fn drawn_call(random: &mut Random) -> (Vec<u8>, Vec<Vec<u8>>, [usize; 2]) {
    let shape = Shape {
        soft: 100,
        ..Shape::tiny()
    };
    let instance = instance(random, &shape);
    let file = encode(&instance);
    let model = model(&instance, &timetable(random, &instance));
    let damaged = damaged_texts(random, &model).into_iter();
    let mut texts: Vec<Vec<u8>> = damaged.map(|damaged| damaged.text).collect();
    texts.extend((0..4).map(|_| printed(random, &model).text()));
    let bytes = texts.iter().map(|text| damaged_bytes(random, text));
    let bytes: Vec<Vec<u8>> = bytes.collect();
    texts.extend(bytes);
    let lengths = match random.below(4) {
        0 => [(); 2].map(|()| lent(random, model.len() as u64) as usize),
        1 => [model.len(), lent(random, model.len() as u64) as usize],
        _ => [model.len(); 2],
    };
    (file, texts, lengths)
}

/// Each mistake is seen in the texts that are drawn; the reader without one answers
/// as the reference does.
#[test]
fn readers_that_make_a_mistake_are_found_by_drawn_texts() {
    let mut found: BTreeMap<String, usize> = BTreeMap::new();
    let mut texts = 0;
    for seed in 0..150 {
        let (file, drawn, lengths) = drawn_call(&mut Random::new(seed));
        for text in drawn {
            texts += 1;
            let right = reference::solver_text(&file, &text, lengths[0], lengths[1]);
            let told = |mistake| hasty::solver_text(&file, &text, lengths, mistake) != right;
            assert!(!told(None), "seed {seed}, {}", text.escape_ascii());
            for &mistake in MISTAKES {
                let name = format!("{mistake:?}");
                *found.entry(name).or_default() += usize::from(told(Some(mistake)));
            }
        }
    }
    println!("seeds 0..150: {texts} texts, found by so many: {found:?}");
    for (mistake, count) in found {
        assert!(count >= 5, "{mistake}");
    }
}

/// Each mistake in reading a text but those in large numbers is seen in short texts.
#[test]
fn readers_that_make_a_mistake_are_found_by_short_texts() {
    let file = tiny();
    let lengths = [TINY_VARIABLES; 2];
    let mut pool: Vec<Vec<u8>> = Vec::new();
    let mut keep = |text: &[u8]| pool.push(text.to_vec());
    every_text(b"", b"vVcox 1-+0\t\r\n\0", 3, &mut keep);
    every_text(b"v ", b" 1-+0x", 3, &mut keep);
    for prefix in [&b"v 2"[..], b"v 1 2", b"v 1 2 0", b"v 1 2 3"] {
        every_text(prefix, b"v 1340-x\n", 4, &mut keep);
    }
    let right: Vec<Answer> = pool
        .iter()
        .map(|text| reference::solver_text(&file, text, lengths[0], lengths[1]))
        .collect();
    let found = |mistake: Option<Mistake>| {
        let mut all = pool.iter().zip(&right);
        all.any(|(text, right)| hasty::solver_text(&file, text, lengths, mistake) != *right)
    };
    assert!(!found(None));
    let all = MISTAKES.iter().copied();
    let missed: Vec<Mistake> = all.filter(|&mistake| !found(Some(mistake))).collect();
    println!("{} texts, not found: {missed:?}", pool.len());
    let expected = [
        Mistake::LongerModelAccepted,
        Mistake::LongerStoreRefused,
        Mistake::ModelBeforeStore,
        Mistake::TextBeforeLengths,
        Mistake::NumberOf32Bits,
        Mistake::NumberOf64Bits,
    ];
    assert_eq!(missed, expected);
}
