#!/usr/bin/env python3
"""Turns copies of the Rust's files and of num_traits into those of the fixed build.

patch.py CRATE NUM_TRAITS: both are folders with copies, changed in place. Each rule names a line as it stands
in the file, how often it stands there, and what takes its place. Nothing is written unless every rule fits.
"""
import os
import sys

# A method of num_traits' Float is taken out of the list of forwarded ones and given a body.
BODY = "            }\n            %s\n            forward! {"


def method(head, call):
    return BODY % f"fn {head} {{ crate::fixed::{call} as Self }}"


ARRAYS = "linalg/basic/arrays.rs"
LASSO = "linear/lasso_optimizer.rs"
SOLVER = "linear/bg_solver.rs"

# (file, line, how often, replacement)
CRATE_RULES = [
    (ARRAYS, "                .fold(f64::NEG_INFINITY, |a, b| a.max(b))", 2,
     "                .fold(f64::NEG_INFINITY, |a, b| num_traits::fixed::max(a, b))"),
    (ARRAYS, "                .fold(f64::INFINITY, |a, b| a.min(b))", 2,
     "                .fold(f64::INFINITY, |a, b| num_traits::fixed::min(a, b))"),
    (ARRAYS, "                norm += xi.to_f64().unwrap().abs().powf(p);", 2,
     "                norm += num_traits::fixed::powf(xi.to_f64().unwrap().abs(), p);"),
    (ARRAYS, "            norm.powf(1f64 / p)", 2, "            num_traits::fixed::powf(norm, 1f64 / p)"),
    (ARRAYS, "        sum / div - mu.powi(2)", 1, "        sum / div - num_traits::fixed::powi(mu, 2)"),
    (ARRAYS, "            *x_i = sum / div - mu.powi(2);", 1,
     "            *x_i = sum / div - num_traits::fixed::powi(mu, 2);"),
    (LASSO, "        for ntiter in 0..max_iter {", 1, "        for ntiter in 0..max_iter {\n crate::counts::opening();"),
    (LASSO, "            if gap / dobj < tol {", 1, "            if gap / dobj < tol {\n crate::counts::converged();"),
    (LASSO, "            while lsiter < max_ls_iter {", 1,
     "            while lsiter < max_ls_iter {\n crate::counts::trial();"),
    (SOLVER, "        for iter in 1..max_iter {", 1, "        for iter in 1..max_iter {\n crate::counts::solver_round();"),
]

NUM_TRAITS_RULES = [
    ("float.rs", "                Self::ln(self) -> Self;", 1, method("ln(self) -> Self", "ln(self as f64)")),
    ("float.rs", "                Self::powi(self, n: i32) -> Self;", 1,
     method("powi(self, n: i32) -> Self", "powi(self as f64, n)")),
    ("float.rs", "                Self::powf(self, n: Self) -> Self;", 1,
     method("powf(self, n: Self) -> Self", "powf(self as f64, n as f64)")),
    ("float.rs", "                Self::max(self, other: Self) -> Self;", 1,
     method("max(self, other: Self) -> Self", "max(self as f64, other as f64)")),
    ("float.rs", "                Self::min(self, other: Self) -> Self;", 1,
     method("min(self, other: Self) -> Self", "min(self as f64, other as f64)")),
    ("lib.rs", "mod macros;", 1, "mod macros;\npub mod fixed;"),
]


def patched(folder, rules):
    """The new text of each file, and what does not fit."""
    texts, wrong = {}, []
    for name, line, times, new in rules:
        if name not in texts:
            with open(os.path.join(folder, name), encoding="utf-8") as file:
                texts[name] = file.read().split("\n")
        found = texts[name].count(line)
        if found != times:
            wrong.append(f"{name}: expected {times} time(s), found {found}: {line.strip()}")
        texts[name] = [new if text == line else text for text in texts[name]]
    return {os.path.join(folder, name): "\n".join(lines) for name, lines in texts.items()}, wrong


def main():
    if len(sys.argv) != 3:
        sys.exit("patch.py CRATE NUM_TRAITS")
    try:
        crate, wrong = patched(sys.argv[1], CRATE_RULES)
        traits, more = patched(sys.argv[2], NUM_TRAITS_RULES)
    except OSError as error:
        sys.exit(f"patch.py: {error}")
    if wrong + more:
        sys.exit("patch.py: the Rust is not what the patch knows; nothing was changed\n  " + "\n  ".join(wrong + more))
    for path, text in {**crate, **traits}.items():
        with open(path, "w", encoding="utf-8") as file:
            file.write(text)


main()
