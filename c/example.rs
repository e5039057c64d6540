// example.c for Rust, and all of olikumpasho.h's declarations. A slice is lent by its pointer and its length, empty or not. The calls take
// any words and numbers, so that functions around them need no `unsafe` of their own.
#[allow(dead_code)]
mod c {
    #[link(name = "olikumpasho", kind = "static")]
    extern "C" {
        pub fn olikumpasho_weight_of(variables: u64, table: *const u64, words: usize, reading: u64, weighed: *mut u64) -> u64;
        pub fn olikumpasho_load(variables: u64, table: *const u64, words: usize, capacity: u64, desk: *mut u64, desk_words: usize) -> u64;
        pub fn olikumpasho_well_formed(desk: *const u64, desk_words: usize) -> bool;
        pub fn olikumpasho_decide(desk: *mut u64, desk_words: usize, literal: i64) -> u64;
        pub fn olikumpasho_rewrite(desk: *mut u64, desk_words: usize, kind: u64, named: *const u64, count: usize) -> u64;
        pub fn olikumpasho_take_back(desk: *mut u64, desk_words: usize) -> u64;
        pub fn olikumpasho_bound(desk: *const u64, desk_words: usize, choice: u64, losses: *mut u64) -> u64;
        pub fn olikumpasho_search(desk: *const u64, desk_words: usize, choice: u64, budget: u32, found: *mut u64) -> u64;
        pub fn olikumpasho_read(text: *const u8, count: usize, table: *mut u64, words: usize, head: *mut u64) -> u64;
        pub fn olikumpasho_write(
            variables: u64, budget: u32, table: *const u64, words: usize, output: *mut u8, room: usize, size: *mut usize,
        ) -> u64;
        pub fn olikumpasho_answer(input: *const u8, count: usize, output: *mut u8, room: usize, size: *mut usize) -> u64;
        pub fn olikumpasho_read_wcnf(text: *const u8, count: usize, table: *mut u64, words: usize, head: *mut u64) -> u64;
        pub fn olikumpasho_write_wcnf(
            variables: u64, table: *const u64, words: usize, output: *mut u8, room: usize, size: *mut usize,
        ) -> u64;
    }
}

/// A refusal: its number and its place.
struct Refused(u64, u64);

fn told(answer: u64) -> Result<(), Refused> {
    if answer == 0 { Ok(()) } else { Err(Refused(answer & 255, answer >> 8)) }
}

/// Which bound.
#[allow(dead_code)]
#[derive(Clone, Copy)]
enum Bound {
    Units = 0,
    Groups = 1,
}

/// How a search ended.
enum End {
    Done,
    Stopped,
    Impossible,
}

struct Found {
    end: End,
    best: Option<(u64, u64)>, // weight and reading
    nodes: u64,
}

struct Desk(Vec<u64>);

impl Desk {
    fn load(variables: u64, table: &[u64], capacity: u32) -> Result<Desk, Refused> {
        let mut desk = vec![0; 8 + 4 * capacity as usize + 4096];
        let answer = unsafe {
            c::olikumpasho_load(variables, table.as_ptr(), table.len(), capacity.into(), desk.as_mut_ptr(), desk.len())
        };
        told(answer)?;
        Ok(Desk(desk))
    }

    fn decide(&mut self, literal: i64) -> Result<(), Refused> {
        told(unsafe { c::olikumpasho_decide(self.0.as_mut_ptr(), self.0.len(), literal) })
    }

    // Conceded, lost beyond that, foreseen.
    fn bound(&self, by: Bound) -> Result<[u64; 3], Refused> {
        let mut losses = [0; 3];
        told(unsafe { c::olikumpasho_bound(self.0.as_ptr(), self.0.len(), by as u64, losses.as_mut_ptr()) })?;
        Ok(losses)
    }

    fn search(&self, by: Bound, budget: u32) -> Result<Found, Refused> {
        let mut found = [0; 5];
        told(unsafe { c::olikumpasho_search(self.0.as_ptr(), self.0.len(), by as u64, budget, found.as_mut_ptr()) })?;
        let best = if found[1] == 1 { Some((found[2], found[3])) } else { None };
        let end = match found[0] {
            0 => End::Done,
            1 => End::Stopped,
            _ => End::Impossible,
        };
        Ok(Found { end, best, nodes: found[4] })
    }
}

fn hour() -> Result<(), Refused> {
    assert!(Desk::load(0, &[], 0)?.bound(Bound::Units)? == [0; 3]); // no variables and no rows
    let mut desk = Desk::load(3, &[1, 0, 5, 0, 0, 2, 5, 0, 2, 4, 4, 0, 4, 0, 2, 0], 8)?; // the last word of four is 1 for a hard row
    let found = desk.search(Bound::Units, 100)?;
    desk.decide(3)?;
    let (weight, reading) = found.best.expect("100 nodes are enough");
    let end = match found.end {
        End::Done => "done",
        End::Stopped => "stopped",
        End::Impossible => "impossible",
    };
    println!("{}: weight {}, reading {}, {} nodes", end, weight, reading, found.nodes);
    let [_, lost, foreseen] = desk.bound(Bound::Units)?;
    println!("with 3 true, {lost} lost and {foreseen} foreseen");
    Ok(())
}

fn main() {
    if let Err(Refused(number, place)) = hour() {
        println!("refused: number {}, place {}", number, place);
        std::process::exit(1);
    }
}
