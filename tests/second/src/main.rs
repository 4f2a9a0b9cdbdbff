//! The command line of the second program.

use second::analysis::{analyse, Lengths};
use second::bracket::{bracket, events_reached};
use second::brute;
use second::brute_cuts;
use second::city;
use second::decision::decides;
use second::equations::{export, name_at, typed, Import};
use second::folders::Folder;
use second::generator::{middle_shape, sites, tree, wide_tree};
use second::importance::importance;
use second::judge::{read, write, Refusal, OLD_READER, READER};
use second::listing::{list, Walk};
use second::moves::{from_sites, to_sites};
use second::planner::{judge as judge_set, plan, without, Judgement};
use second::program::{program, report};
use second::random::Random;
use second::report::{refusal, reportable_cuts};
use second::sets::Set;
use second::settings::{analyse_season, analyse_when, chances_under, Season, Setting, State};
use second::sizes::{folder, RefusedFolder};
use second::stores::store_of;
use second::tree::{Tree, MOST_EVENTS};
use std::io::{self, Read, Write};
use std::process::exit;

const USAGE: &str = "second judge FILE              accepted, or refused with number and place
second old FILE                the same by the reader before request 7
second analyse FILE [NODES [CUTS]]  the program's report; capacities in nodes, else as large as allowed
second counts FILE             counts only, without the list of cuts
second brute FILE              nodes by gate, cut nodes and cuts by truth tables; 12 events or so
second plain FILE [ROOM MOST]  what bench/plain prints: cuts in rooms of ROOM bytes until MOST are written
second program FILE            what the program of document 01 writes
second equations FILE          the bytes of the tree that typed equations say
second names FILE              the numbers that those equations' names get
second export FILE             a tree's bytes as equations
second to-sites FILE           a tree's bytes in the form with sites, or the refusal
second from-sites FILE         in the form without
second at FILE SITE..          in the form with sites, its events at these
second sizes FILE..            how many cuts of each size the trees have together
second report FILE EDITION     the cuts that are reportable under an edition of the review rule
second season FILE STORE EDITION  the cuts and the root's chance under the settings of an edition
second store SETTING..         a store's bytes: settings as 2:7:failed, edition, event, and free, failed or sound
second plan FILE [NAME..]      of typed equations what to keep sound: a proposal, or these names, checked
second importance FILE         how much each event matters, the most first
second listing FILE [STORE EDITION]  the bytes of a tree's listing, free or under the settings of an edition
second decide LISTING EVENTS [EVENT..]  whether the root fails where these events do, by the bytes of a listing
second city SIZE               the equations of a city-like tree: small, middle, large, or wide of 900 events
second random SEED [wide|sited]  the bytes of a seeded tree of middle size, or of 255 to 1,024 events, or with sites
a FILE of - is the standard input";

fn main() {
    let words: Vec<String> = std::env::args().skip(1).collect();
    if words.len() < 2 {
        eprintln!("{USAGE}");
        exit(2);
    }
    let out = &mut io::BufWriter::new(io::stdout().lock());
    if words[0] == "city" {
        let _ = city(&words[1], out).and_then(|()| out.flush());
        return;
    }
    if words[0] == "store" {
        let settings: Vec<Setting> = words[1..].iter().map(|word| setting(word)).collect();
        let _ = out.write_all(&store_of(&settings)).and_then(|()| out.flush());
        return;
    }
    if words[0] == "random" {
        let random = &mut Random::new(number(&words[1]) as u64);
        let middle = |random: &mut Random| {
            let shape = middle_shape(random);
            tree(random, shape)
        };
        let tree = match words.get(2).map(String::as_str) {
            Some("sited") => {
                let tree = middle(random);
                let sites = sites(random, tree.events());
                tree.with_sites(&sites)
            }
            Some(_) => wide_tree(random),
            None => middle(random),
        };
        let _ = out.write_all(&write(&tree).expect("a generated tree is accepted"));
        return;
    }
    let bytes = contents(&words[1]);
    let capacity = |at: usize| words.get(at).map_or(1_000_000, number);
    let done = match words[0].as_str() {
        "judge" => judge(READER.read(&bytes), out),
        "old" => judge(OLD_READER.read(&bytes), out),
        "analyse" => report(&bytes, Lengths::of_capacities(capacity(2), capacity(3)), true, out),
        "counts" => counts(&bytes, out),
        "brute" => brute(&bytes, out),
        "plain" => plain(&bytes, words.get(2).map_or(65_536, number), words.get(3).map_or(100_000, number), out),
        "program" => program(&bytes, out),
        "equations" => equations(&bytes, out),
        "names" => names(&bytes, out),
        "export" => typed_out(&bytes, out),
        "to-sites" => moved(to_sites(&bytes), out),
        "from-sites" => moved(from_sites(&bytes), out),
        "at" => at(&bytes, &words[2..], out),
        "sizes" => by_size(&words[1..], out),
        "plan" => planned(&bytes, &words[2..], out),
        "importance" => weighed(&bytes, out),
        "listing" if [2, 4].contains(&words.len()) => listed(&bytes, &words[2..], out),
        "decide" if words.len() > 2 => decided(&bytes, number(&words[2]) as u64, &words[3..], out),
        "report" => reviewed(&bytes, words.get(2).map_or(0, number) as u32, out),
        "season" if words.len() == 4 => in_season(&bytes, &contents(&words[2]), number(&words[3]) as u16, out),
        other => {
            eprintln!("unknown: {other}\n{USAGE}");
            exit(2);
        }
    };
    // A closed pipe isn't worth a report.
    let _ = done.and_then(|()| out.flush());
}

fn contents(file: &str) -> Vec<u8> {
    let mut bytes = Vec::new();
    let read = match file {
        "-" => io::stdin().read_to_end(&mut bytes).map(|_| ()),
        _ => std::fs::read(file).map(|read| bytes = read),
    };
    if let Err(fault) = read {
        eprintln!("{file}: {fault}");
        exit(2);
    }
    bytes
}

fn judge(reading: Result<Tree, Refusal>, out: &mut dyn Write) -> io::Result<()> {
    match reading {
        Ok(tree) => writeln!(
            out,
            "accepted: {} events{}, {} gates, {} inputs",
            tree.event_count,
            if tree.sited { " with sites" } else { "" },
            tree.gate_count,
            tree.inputs.len()
        ),
        Err(Refusal { number, place }) => writeln!(out, "refused {number} at {place}"),
    }
}

fn counts(bytes: &[u8], out: &mut dyn Write) -> io::Result<()> {
    let done = match analyse(bytes, Lengths::AMPLE) {
        Ok(done) => done,
        Err(Refusal { number, place }) => return writeln!(out, "refused {number} at {place}"),
    };
    let top = bracket(&done.lent_function(), &done.tree.chances, true);
    writeln!(out, "bytes {}", bytes.len())?;
    writeln!(out, "events {}", done.tree.event_count)?;
    writeln!(out, "gates {}", done.tree.gate_count)?;
    writeln!(out, "nodes {}", done.robdd.nodes.count())?;
    writeln!(out, "root reaches {}", done.robdd.nodes.reached(done.robdd.root()).len())?;
    writeln!(out, "cut nodes {}", done.cuts.nodes.count())?;
    writeln!(out, "cut root reaches {}", done.cuts.nodes.reached(done.cuts.root).len())?;
    writeln!(out, "cuts {}", done.cuts.cut_count().decimal())?;
    writeln!(out, "L {}", events_reached(&done.lent_function()))?;
    writeln!(out, "top {} {}", top.low, top.high)
}

fn number(word: &String) -> usize {
    word.parse().expect("a number")
}

/// The definitions themselves, without any diagram.
fn brute(bytes: &[u8], out: &mut dyn Write) -> io::Result<()> {
    let tree = match read(bytes) {
        Ok(tree) if tree.events() <= 16 => tree,
        Ok(_) => return writeln!(out, "too many events"),
        Err(Refusal { number, place }) => return writeln!(out, "refused {number} at {place}"),
    };
    let functions = brute::functions(&tree);
    let root = functions.of_gates.last().expect("a tree has a gate");
    writeln!(out, "nodes by gate {:?}", functions.nodes_needed)?;
    writeln!(out, "cut nodes {}", brute_cuts::cut_nodes_needed(root, tree.events()))?;
    writeln!(out, "cuts")?;
    for cut in brute_cuts::in_order(&brute_cuts::minimal_cuts(root)) {
        writeln!(out, "{:?}", cut.members())?;
    }
    writeln!(out, "S {}", brute::exact_chance(root, &tree.chances).decimal())
}

/// The yardstick's output, so that the two can be compared line by line.
fn plain(bytes: &[u8], room: usize, most: usize, out: &mut dyn Write) -> io::Result<()> {
    let done = match analyse(bytes, Lengths::AMPLE) {
        Ok(done) => done,
        Err(Refusal { number, place }) => return writeln!(out, "refused {number} at {place}"),
    };
    writeln!(out, "events {}\ngates {}", done.tree.event_count, done.tree.gate_count)?;
    let added: Vec<String> = done.added().iter().map(u32::to_string).collect();
    writeln!(out, "nodes {}\nadded {}", done.robdd.nodes.count(), added.join(" "))?;
    writeln!(out, "cut nodes {}", done.cuts.nodes.count())?;
    let diagram = done.lent_cuts();
    let (mut written, mut used, mut sum, mut start) = (0, 0, 0u64, None);
    let finished = loop {
        let listing = list(&diagram, start, room);
        written += listing.written;
        used += listing.bytes.len();
        sum = listing.bytes.iter().fold(sum, |sum, &byte| sum.wrapping_mul(31).wrapping_add(byte as u64));
        start = Some(listing.last);
        if listing.number != 0 || listing.finished || written >= most {
            break listing.finished;
        }
    };
    writeln!(out, "cuts {written} bytes {used} sum {sum:016x}{}", if finished { " finished" } else { "" })?;
    let top = bracket(&done.lent_function(), &done.tree.chances, true);
    writeln!(out, "top {} {}", top.low, top.high)
}

fn city(size: &str, out: &mut dyn Write) -> io::Result<()> {
    let city = match size {
        "small" => city::SMALL,
        "middle" => city::MIDDLE,
        "large" => city::LARGE,
        "wide" => city::WIDE,
        _ => {
            eprintln!("{USAGE}");
            exit(2);
        }
    };
    write!(out, "{}", city::equations(city))
}

/// What a text says, if it says a tree.
fn imported(text: &[u8]) -> Import {
    let import = typed(text);
    match import.number {
        0 => return import,
        15 | 16 => eprintln!("refused {}, line at {}", import.number, import.line),
        17 => eprintln!("refused 17, ring of lines at {:?}", import.ring),
        number => eprintln!("refused {number}"),
    }
    exit(1);
}

fn equations(text: &[u8], out: &mut dyn Write) -> io::Result<()> {
    out.write_all(&write(&imported(text).tree).expect("an imported tree is accepted"))
}

fn names(text: &[u8], out: &mut dyn Write) -> io::Result<()> {
    let Import { tree, shown, .. } = imported(text);
    for (item, &place) in shown.iter().enumerate() {
        let name = String::from_utf8_lossy(name_at(text, place));
        match item.checked_sub(tree.events()) {
            None => writeln!(out, "event {item} {name} {}", tree.chances[item])?,
            Some(gate) => writeln!(out, "gate {gate} {name}")?,
        }
    }
    Ok(())
}

fn typed_out(bytes: &[u8], out: &mut dyn Write) -> io::Result<()> {
    match read(bytes) {
        Ok(tree) => out.write_all(&export(&tree).expect("a read tree is accepted")),
        Err(Refusal { number, place }) => writeln!(out, "refused {number} at {place}"),
    }
}

fn moved(moved: Result<Vec<u8>, Refusal>, out: &mut dyn Write) -> io::Result<()> {
    match moved {
        Ok(bytes) => out.write_all(&bytes),
        Err(Refusal { number, place }) => writeln!(out, "refused {number} at {place}"),
    }
}

fn at(bytes: &[u8], sites: &[String], out: &mut dyn Write) -> io::Result<()> {
    let sites: Vec<u16> = sites.iter().map(|site| site.parse().expect("a site")).collect();
    moved(read(bytes).and_then(|tree| write(&tree.with_sites(&sites))), out)
}

fn reviewed(bytes: &[u8], edition: u32, out: &mut dyn Write) -> io::Result<()> {
    let done = match analyse(bytes, Lengths::AMPLE) {
        Ok(done) => done,
        Err(Refusal { number, place }) => return writeln!(out, "refused {number} at {place}"),
    };
    let (family, chances) = (done.lent_cuts(), &done.tree.chances);
    if let Some(number) = refusal(edition, &family, chances, true, None) {
        return writeln!(out, "refused {number}");
    }
    writeln!(out, "edition {edition}")?;
    for cut in reportable_cuts(edition, &family, chances, None) {
        let members: Vec<String> = cut.members().iter().map(u32::to_string).collect();
        writeln!(out, "{}", members.join(" "))?;
    }
    Ok(())
}

/// A setting as it is typed.
fn setting(word: &str) -> Setting {
    let parts: Vec<&str> = word.split(':').collect();
    let state = match parts[..] {
        [_, _, "free"] => State::Free,
        [_, _, "failed"] => State::Failed,
        [_, _, "sound"] => State::Sound,
        _ => {
            eprintln!("no setting: {word}");
            exit(2);
        }
    };
    let number = |part: &str| part.parse().expect("a number of two bytes");
    Setting { edition: number(parts[0]), event: number(parts[1]), state }
}

fn in_season(bytes: &[u8], store: &[u8], edition: u16, out: &mut dyn Write) -> io::Result<()> {
    let season = Season { store, edition };
    let done = match analyse_season(bytes, season, Lengths::AMPLE) {
        Ok(done) => done,
        Err(Refusal { number, place }) => return writeln!(out, "refused {number} at {place}"),
    };
    writeln!(out, "edition {edition}\nnodes {}\ncuts", done.robdd.nodes.count())?;
    for cut in Walk::new(&done.lent_cuts(), None) {
        let members: Vec<String> = cut.members().iter().map(u32::to_string).collect();
        writeln!(out, "{}", members.join(" "))?;
    }
    let chances = chances_under(season, &done.tree.chances).expect("the store is accepted");
    let top = bracket(&done.lent_function(), &chances, true);
    writeln!(out, "top {} {}", top.low, top.high)
}

/// A proposal, or the set of these names, checked; and again without each member that could be dropped.
fn planned(text: &[u8], names: &[String], out: &mut dyn Write) -> io::Result<()> {
    let Import { tree, shown, .. } = imported(text);
    let done = analyse(&write(&tree).expect("an imported tree is accepted"), Lengths::AMPLE);
    let family = done.unwrap_or_else(|Refusal { number, .. }| panic!("refused {number}")).lent_cuts();
    let name = |event: u32| String::from_utf8_lossy(name_at(text, shown[event as usize])).into_owned();
    let root = String::from_utf8_lossy(name_at(text, shown[shown.len() - 1]));
    let by_name = |set: &Set| set.members().into_iter().map(|event| format!(" {}", name(event))).collect::<String>();
    let event = |wanted: &String| (0..tree.events() as u32).find(|&event| name(event) == *wanted);
    let mut set = match names {
        [] => match plan(&family) {
            Ok(set) => set,
            Err(number) => return writeln!(out, "refused {number}"),
        },
        names => match names.iter().map(event).collect::<Option<Vec<u32>>>() {
            Some(events) => Set::of(&events),
            None => return writeln!(out, "refused 13"),
        },
    };
    writeln!(out, "{}:{}", if names.is_empty() { "proposed" } else { "asked" }, by_name(&set))?;
    loop {
        match judge_set(&family, set) {
            Judgement::Accepted => {
                return writeln!(out, "accepted: {root} can't fail while these are sound:{}", by_name(&set));
            }
            Judgement::Missed(cut) => return writeln!(out, "not enough: {root} fails with{}", by_name(&cut)),
            Judgement::Droppable(member) => {
                writeln!(out, "more than enough: {} could be dropped", name(member))?;
                set = without(set, member);
            }
        }
    }
}

fn listed(bytes: &[u8], when: &[String], out: &mut dyn Write) -> io::Result<()> {
    let store = when.first().map(|file| contents(file));
    let season = store.as_ref().map(|store| Season { store, edition: number(&when[1]) as u16 });
    match analyse_when(season, bytes, Lengths::AMPLE) {
        Ok(done) => out.write_all(&list(&done.lent_cuts(), None, usize::MAX).bytes),
        Err(Refusal { number, place }) => writeln!(out, "refused {number} at {place}"),
    }
}

fn decided(listing: &[u8], events: u64, failed: &[String], out: &mut dyn Write) -> io::Result<()> {
    let failed: Vec<u32> = failed.iter().map(|word| number(word) as u32).collect();
    // An event that no set can hold is beyond all events, too.
    let set = Set::of(&failed.iter().map(|&event| event.min(MOST_EVENTS as u32 - 1)).collect::<Vec<_>>());
    let events = if failed.iter().any(|&event| event >= MOST_EVENTS as u32) { 0 } else { events };
    match decides(listing, events, &set) {
        Ok(true) => writeln!(out, "the root fails"),
        Ok(false) => writeln!(out, "the root does not fail"),
        Err(Refusal { number, .. }) => writeln!(out, "refused {number}"),
    }
}

fn weighed(bytes: &[u8], out: &mut dyn Write) -> io::Result<()> {
    let done = match analyse(bytes, Lengths::AMPLE) {
        Ok(done) => done,
        Err(Refusal { number, place }) => return writeln!(out, "refused {number} at {place}"),
    };
    let weights = importance(&done.lent_function(), &done.tree.chances, true).expect("a built diagram is weighed");
    for event in weights.rank {
        let (low, high) = (weights.lows[event as usize], weights.highs[event as usize]);
        writeln!(out, "event {event}: {low} to {high} billionths")?;
    }
    Ok(())
}

fn by_size(files: &[String], out: &mut dyn Write) -> io::Result<()> {
    let trees: Vec<Vec<u8>> = files.iter().map(|file| contents(file)).collect();
    let Folder { bytes, lengths } = Folder::of(&trees);
    match folder(&bytes, &lengths, Lengths::AMPLE, true) {
        Ok(totals) => {
            let mut told = totals.iter().enumerate().filter(|&(_, &count)| count != 0);
            told.try_for_each(|(size, count)| writeln!(out, "size {size}: {count}"))
        }
        Err(RefusedFolder { number: 19, .. }) => writeln!(out, "refused 19"),
        Err(RefusedFolder { number, place, tree }) => {
            let file = files.get(tree as usize).map_or("the folder", String::as_str);
            writeln!(out, "refused {number} at {place}: {file}")
        }
    }
}
