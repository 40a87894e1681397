//! The drive program as a function: the true ground as text in, what the cart does as text out.

use crate::ground::{layout, report};
use crate::plot::{Head, Map, Scratch, DIRECTIONS, MAX_SIDE};
use crate::route::{advance, cells_to_goal};
use crate::search::{plan, Outcome};
use std::fmt::Write;

/// The input, once it is known to be in good form.
struct Course {
    width: usize,
    height: usize,
    start: usize,
    goal: usize,
    blocked: Vec<bool>,
}

/// A decimal number without leading zeros. No number of the input has more than four digits.
fn number(word: &[u8]) -> Option<usize> {
    let plain = !word.is_empty() && word.len() <= 4 && word.iter().all(u8::is_ascii_digit);
    if !plain || (word[0] == b'0' && word.len() > 1) {
        return None;
    }
    Some(word.iter().fold(0, |sum, &digit| sum * 10 + usize::from(digit - b'0')))
}

/// The four numbers of the first line, and what follows its line feed.
fn first_line(input: &[u8]) -> Option<([usize; 4], &[u8])> {
    let end = input.iter().position(|&byte| byte == b'\n')?;
    let words: Vec<&[u8]> = input[..end].split(|&byte| byte == b' ').collect();
    let numbers: Vec<usize> = words.into_iter().map(number).collect::<Option<_>>()?;
    Some((numbers.try_into().ok()?, &input[end + 1..]))
}

/// The true ground: exactly `height` lines of `width` characters, each with its line feed, and nothing after.
fn ground_lines(text: &[u8], width: usize, height: usize) -> Option<Vec<bool>> {
    if text.len() != height * (width + 1) {
        return None;
    }
    let mut blocked = Vec::new();
    for line in text.chunks(width + 1) {
        if line[width] != b'\n' || !line[..width].iter().all(|byte| b".#".contains(byte)) {
            return None;
        }
        blocked.extend(line[..width].iter().map(|&byte| byte == b'#'));
    }
    Some(blocked)
}

fn course(input: &[u8]) -> Option<Course> {
    let ([width, height, start, goal], text) = first_line(input)?;
    let sides = 1..=MAX_SIDE;
    if !sides.contains(&width) || !sides.contains(&height) {
        return None;
    }
    let n = width * height;
    if start >= n || goal >= n {
        return None;
    }
    let blocked = ground_lines(text, width, height)?;
    if blocked[start] {
        return None;
    }
    Some(Course { width, height, start, goal, blocked })
}

/// Reports each neighbour that is truly blocked and not yet known to be, in direction order.
fn look(course: &Course, head: Head, map: &mut Map, out: &mut String) -> Option<()> {
    for direction in DIRECTIONS {
        if let Some(cell) = head.step(head.cell, direction) {
            if course.blocked[cell] && map.free(cell) {
                report(head, map, cell).ok()?;
                writeln!(out, "blocked {cell}").ok()?;
            }
        }
    }
    Some(())
}

/// Plans and writes the plan's line. Whether there is a way.
fn plan_line(head: Head, map: &mut Map, out: &mut String) -> Option<bool> {
    let n = head.cells();
    let (mut mark, mut cost, mut trail) = (vec![0; n], vec![0; n], vec![0; n]);
    let planned = plan(head, map, &mut Scratch { mark: &mut mark, cost: &mut cost, trail: &mut trail }).ok()?;
    match planned.outcome {
        Outcome::Route(length) => writeln!(out, "plan {length} {}", planned.expanded).ok()?,
        Outcome::NoWay => writeln!(out, "no way {}", planned.expanded).ok()?,
        Outcome::Arrived => {}
    }
    Some(planned.outcome != Outcome::NoWay)
}

fn follow(course: &Course) -> Option<String> {
    let n = course.width * course.height;
    let (mut ground, mut learned, mut link) = (vec![0; n], vec![0; n], vec![0; n]);
    let map = &mut Map { ground: &mut ground, learned: &mut learned, link: &mut link };
    let mut head = layout(course.width, course.height, course.start, course.goal, map).ok()?;
    let mut out = String::new();
    let mut moves = 0;
    loop {
        look(course, head, map, &mut out)?;
        if head.cell == head.goal {
            writeln!(out, "arrived {moves}").ok()?;
            return Some(out);
        }
        if cells_to_goal(head, map, head.cell).is_none() && !plan_line(head, map, &mut out)? {
            return Some(out);
        }
        head = advance(head, map).ok()?;
        moves += 1;
        writeln!(out, "move {}", head.cell).ok()?;
    }
}

pub fn drive(input: &[u8]) -> String {
    match course(input) {
        // No call of a drive is ever refused; were one, the test that reads this text would say so.
        Some(course) => follow(&course).unwrap_or_else(|| "refused\n".into()),
        None => "bad input\n".into(),
    }
}
