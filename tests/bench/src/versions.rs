//! Each call in its three versions.

use crate::race::{Call, Versions, Work};
use crate::{plain, tuned};
use lanecard::Values;
use std::hint::black_box;
use tuned::Index;

/// Bytes for any card: a class for each signal, a verdict for each output.
const CLASSES: usize = 256 + 2048;
const VERDICTS: usize = 64;

/// Changes of the longest list.
const CHANGES: usize = 1000;

/// A version with a buffer of its own. What it gives and writes counts as
/// used, so that no part of it is left out.
fn work<T>(length: usize, mut version: impl FnMut(&Call, &mut [u8]) -> T + 'static) -> Work {
    let mut buffer = vec![0; length];
    Box::new(move |call| {
        black_box(version(call, &mut buffer));
        black_box(&buffer);
    })
}

fn answered(call: impl FnOnce(&mut Values) -> u32) -> (u32, Values) {
    let mut values = [0; 5];
    (call(&mut values), values)
}

pub fn check_netlist() -> Versions {
    let mut index = tuned::new_index();
    [
        work(0, |c, _| {
            answered(|values| lanecard::netlist(c.netlist, values))
        }),
        work(0, |c, _| plain::check_netlist(c.netlist)),
        work(0, move |c, _| tuned::check_netlist(c.netlist, &mut index)),
    ]
}

pub fn check_list() -> Versions {
    let mut index = tuned::new_index();
    [
        work(0, |c, _| {
            answered(|values| lanecard::list(c.netlist, c.list, values))
        }),
        work(0, |c, _| {
            let checked = plain::check_list(c.netlist, c.list);
            checked.map(|(card, list)| (card, list.changes, list.vector))
        }),
        work(0, move |c, _| {
            let checked = tuned::check_list(c.netlist, c.list, &mut index);
            checked.map(|list| (list.changes, list.vector))
        }),
    ]
}

/// Calls that fill a buffer for one change.
fn one_change<T>(
    length: usize,
    library: impl Fn(&[u8], &[u8], usize, &mut [u8], &mut Values) -> u32 + 'static,
    plain: impl Fn(&[u8], &[u8], usize, &mut [u8]) -> T + 'static,
    tuned: impl Fn(&[u8], &[u8], usize, &mut [u8], &mut Index) -> T + 'static,
) -> Versions {
    let mut index = tuned::new_index();
    [
        work(length, move |c, buffer| {
            answered(|values| library(c.netlist, c.list, c.change, buffer, values))
        }),
        work(length, move |c, buffer| {
            plain(c.netlist, c.list, c.change, buffer)
        }),
        work(length, move |c, buffer| {
            tuned(c.netlist, c.list, c.change, buffer, &mut index)
        }),
    ]
}

pub fn full() -> Versions {
    one_change(CLASSES, lanecard::full, plain::full, tuned::full)
}

pub fn forward() -> Versions {
    one_change(VERDICTS, lanecard::forward, plain::forward, tuned::forward)
}

pub fn core() -> Versions {
    let mut index = tuned::new_index();
    [
        work(0, |c, _| {
            answered(|values| lanecard::core(c.netlist, c.list, c.change, c.output, values))
        }),
        work(0, |c, _| plain::core(c.netlist, c.list, c.change, c.output)),
        work(0, move |c, _| {
            tuned::core(c.netlist, c.list, c.change, c.output, &mut index)
        }),
    ]
}

/// Calls that fill a buffer with a row of so many bytes for every change.
fn every_change<T>(
    width: usize,
    library: impl Fn(&[u8], &[u8], &mut [u8], &mut Values) -> u32 + 'static,
    plain: impl Fn(&[u8], &[u8], &mut [u8]) -> T + 'static,
    tuned: impl Fn(&[u8], &[u8], &mut [u8], &mut Index) -> T + 'static,
) -> Versions {
    let mut index = tuned::new_index();
    let length = CHANGES * width;
    [
        work(length, move |c, buffer| {
            answered(|values| library(c.netlist, c.list, buffer, values))
        }),
        work(length, move |c, buffer| plain(c.netlist, c.list, buffer)),
        work(length, move |c, buffer| {
            tuned(c.netlist, c.list, buffer, &mut index)
        }),
    ]
}

pub fn full_all() -> Versions {
    every_change(
        CLASSES,
        lanecard::full_all,
        plain::full_all,
        tuned::full_all,
    )
}

pub fn core_all() -> Versions {
    every_change(
        VERDICTS,
        lanecard::core_all,
        plain::core_all,
        tuned::core_all,
    )
}

pub fn forward_all() -> Versions {
    every_change(
        VERDICTS,
        lanecard::forward_all,
        plain::forward_all,
        tuned::forward_all,
    )
}
