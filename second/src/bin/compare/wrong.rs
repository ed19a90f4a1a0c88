//! Shows that the comparison can fail: each wrong variant of the second program takes the place of a door.

use crate::doors::Library;
use crate::judge::{Difference, Judge};
use crate::options::Options;
use crate::{cases, random, slips, small, variants};
use second::rules::Rules;

type Try<'a> = dyn Fn(&mut Judge) -> Result<(), Difference> + 'a;

fn judge(name: &str, rules: &'static dyn Rules, shrinks: bool) -> Judge {
    let run = |file: &[u8], buffer: &mut [u8]| rules.run(file, buffer);
    let door = Library { title: format!("wrong: {name}"), run };
    let mut judge = Judge::new(vec![Box::new(door)]);
    judge.shrinks = shrinks;
    judge
}

/// Whether each variant is caught. Prints what catches it: the first of the cases, of the random files, of the small
/// histories. The next of these is only tried where the one before did not catch it, or for all with `--all`.
pub fn all_caught(options: &Options) -> bool {
    let (mut caught, mut missed) = (0, Vec::new());
    for (name, rules) in variants::rings().into_iter().chain(slips::calls()) {
        if options.paths.iter().any(|p| !name.contains(p.as_str())) {
            continue;
        }
        // The list lives as long as the program.
        let rules: &'static dyn Rules = Box::leak(rules);
        let tries: [&Try; 3] = [&|j| cases(j, &[]), &|j| random(j, options), &|j| small(j, false)];
        let mut found: Vec<Difference> = Vec::new();
        for attempt in tries {
            if options.all || found.is_empty() {
                found.extend(attempt(&mut judge(name, rules, options.show)).err());
            }
        }
        let by: Vec<&str> = found.iter().map(|d| d.what.as_str()).collect();
        println!("{name}\n    {}", by.join("; "));
        if options.all {
            let catches = |c: &second::cases::Case| judge(name, rules, false).file(c.name, &c.file).is_err();
            let all: Vec<&str> = second::cases::all().iter().filter(|c| catches(c)).map(|c| c.name).collect();
            println!("    cases that catch it: {}", all.join(", "));
        }
        match found.first() {
            Some(difference) if options.show => println!("{}", difference.report),
            Some(_) => {}
            None => missed.push(name),
        }
        caught += 1;
    }
    caught -= missed.len();
    for name in &missed {
        println!("NOT CAUGHT: {name}");
    }
    println!("{caught} wrong variants caught, {} not caught", missed.len());
    missed.is_empty() && caught > 0
}
