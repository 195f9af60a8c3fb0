//! Register programs: from a text to the bytes, and back.

use super::assemble::{lines, parse_byte, rule_number, Fault, Parsed};
use crate::reference::records;
use crate::tables::{padded, program_length, used, Rule, Test, INSTRUCTION_SIZE};

/// The words that start the first line, if it is there, and the last one.
const ACCEPTED: &str = "accepted";
const SIGNAL: &str = "signal";

/// The bytes of the program that the text describes. Its instructions write the registers from
/// `first_written` on.
pub fn assemble_program(text: &str, first_written: usize) -> Result<Vec<u8>, Fault> {
    let mut lines = lines(text).peekable();
    let accepted = lines.next_if(|(_, line)| first_word(line).0 == ACCEPTED);
    let mut records = Vec::new();
    let mut is_ended = false;
    for (number, line) in lines {
        let written = first_written + records.len();
        let record = match first_word(line) {
            _ if is_ended => Err(format!("no line is expected after `{SIGNAL}`")),
            (SIGNAL, test) => {
                is_ended = true;
                read_test(test)
            }
            _ if records.len() == usize::from(u8::MAX) => {
                Err("a program has at most 255 instructions".to_string())
            }
            _ => read_instruction(line, written),
        };
        records.push(record.map_err(|message| Fault { line: number, message })?);
    }
    if !is_ended {
        let message = format!("the line `{SIGNAL}` is expected at the end");
        return Err(Fault { line: text.lines().count(), message });
    }
    let count = records.len() - 1;
    if let Some((number, line)) = accepted {
        if line != format!("{ACCEPTED} {count}") {
            let message = format!("`{ACCEPTED} {count}` is expected");
            return Err(Fault { line: number, message });
        }
    }
    Ok([&[count as u8], records.as_flattened()].concat())
}

fn read_instruction(line: &str, written: usize) -> Parsed<[u8; INSTRUCTION_SIZE]> {
    let (result, applied) =
        line.split_once('=').ok_or("an instruction is `REGISTER = RULE REGISTERS`")?;
    if result.trim() != format!("r{written}") {
        return Err(format!("r{written} is expected before `=`"));
    }
    let (word, registers) = first_word(applied);
    let rule = rule_number(word)?;
    let uses = Rule::from_number(rule).map_or(2, Rule::operands);
    let registers = read_registers(registers, uses)?;
    let [first, second] = padded(&registers);
    Ok([rule, first, second])
}

/// The test that the rest of a line after `signal` describes.
fn read_test(text: &str) -> Parsed<[u8; INSTRUCTION_SIZE]> {
    let (first, rest) = first_word(text);
    let (word, others) = first_word(rest);
    let letter = test_letter(word)?;
    let uses = Test::from_letter(letter).map_or(2, Test::registers);
    let registers = read_registers(&format!("{first} {others}"), uses)?;
    let [first, second] = padded(&registers);
    Ok([letter, first, second])
}

fn first_word(text: &str) -> (&str, &str) {
    let text = text.trim();
    text.split_once(' ').unwrap_or((text, ""))
}

/// Two registers, or as many as are used.
fn read_registers(text: &str, uses: usize) -> Parsed<Vec<u8>> {
    let registers: Vec<u8> = text.split_whitespace().map(read_register).collect::<Parsed<_>>()?;
    if registers.len() != 2 && registers.len() != uses {
        let registers = if uses == 1 { "one register is" } else { "two registers are" };
        return Err(format!("{registers} expected"));
    }
    Ok(registers)
}

fn read_register(text: &str) -> Parsed<u8> {
    let number = text.strip_prefix('r').ok_or_else(|| format!("`{text}` is no register"))?;
    parse_byte(number)
}

fn test_letter(word: &str) -> Parsed<u8> {
    let known = Test::ALL.into_iter().find(|test| test.word() == word);
    match (known, word.strip_prefix("test")) {
        (Some(test), _) => Ok(test.letter()),
        (None, Some(number)) => parse_byte(number),
        (None, None) => Err(format!("`{word}` is no test")),
    }
}

/// The text of a program whose instructions write the registers from `first_written` on; none where it
/// has another length than its first byte says.
pub fn show_program(program: &[u8], first_written: usize) -> Option<String> {
    let (&count, rest) = program.split_first()?;
    if program.len() != program_length(count.into()) {
        return None;
    }
    let mut lines: Vec<String> = records(rest)
        .take(count.into())
        .enumerate()
        .map(|(number, record)| instruction_line(first_written + number, record))
        .collect();
    lines.extend(records(rest).last().map(test_line));
    Some(lines.concat())
}

fn instruction_line(written: usize, [rule, registers @ ..]: [u8; INSTRUCTION_SIZE]) -> String {
    let known = Rule::from_number(rule);
    let word = known.map_or(format!("rule{rule}"), |rule| rule.word().to_string());
    let shown = shown(known.map(Rule::operands), &registers);
    format!("r{written} = {word} {}\n", shown.join(" "))
}

fn test_line([letter, registers @ ..]: [u8; INSTRUCTION_SIZE]) -> String {
    let known = Test::from_letter(letter);
    let word = known.map_or(format!("test{letter}"), |test| test.word().to_string());
    let shown = shown(known.map(Test::registers), &registers);
    let (first, others) = shown.split_first().expect("a test has a register");
    format!("{SIGNAL} {first} {word} {}\n", others.join(" "))
}

/// The registers in use, or both where one that is not used is not 0.
fn shown(uses: Option<usize>, registers: &[u8; 2]) -> Vec<String> {
    let shown = uses.and_then(|uses| used(uses, registers)).unwrap_or(registers);
    shown.iter().map(|register| format!("r{register}")).collect()
}
