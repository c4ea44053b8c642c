//! Adjusts a network file and prints its listing; then adjusts one small condition table that is lent as lists, and prints its corrections
//! and the errors of a direction. Status 1 where one of them is refused.
use std::io::Write;
use std::process::ExitCode;

/// The functions of include/molsadriu.h that this program uses.
mod molsadriu {
    pub const FILE: usize = 65_535;
    pub const LISTING: usize = 6_560;

    #[repr(C)]
    pub struct Verdict {
        pub number: u64,
        pub place: u64,
    }

    #[link(name = "office", kind = "static")]
    extern "C" {
        fn molsadriu_adjust_file(
            file: *const u8,
            file_length: usize,
            out: *mut u8,
            out_room: usize,
            length: *mut usize,
        ) -> Verdict;
        fn molsadriu_refused_line(number: u64, place: u64, out: *mut u8, out_room: usize) -> usize;
        fn molsadriu_adjust_table(
            directions: *const i64,
            directions_length: usize,
            q: *const i64,
            q_length: usize,
            a: *const i64,
            a_length: usize,
            w: *const i64,
            w_length: usize,
            corrections: *mut i64,
            corrections_room: usize,
            printed: *mut i64,
            printed_room: usize,
            adjusted: *mut i64,
            adjusted_room: usize,
            correlates: *mut i64,
            correlates_room: usize,
            remainders: *mut i64,
            remainders_room: usize,
            misses: *mut i64,
            misses_room: usize,
        ) -> Verdict;
        fn molsadriu_probable_error(
            u: *const i64,
            u_length: usize,
            q: *const i64,
            q_length: usize,
            n: usize,
            mean: *mut i64,
            probable: *mut i64,
        ) -> Verdict;
    }

    /// How many bytes of `out` are the listing of a network file, or the verdict that refuses it.
    pub fn adjust_file(file: &[u8], out: &mut [u8]) -> Result<usize, Verdict> {
        let mut length = 0;
        // Sound: each pointer goes with its own slice's length, and a `&mut` shares nothing with another slice.
        let verdict = unsafe {
            molsadriu_adjust_file(file.as_ptr(), file.len(), out.as_mut_ptr(), out.len(), &mut length)
        };
        if verdict.number == 0 {
            Ok(length)
        } else {
            Err(verdict)
        }
    }

    /// How many bytes of `out` are the verdict's REFUSED line.
    pub fn refused_line(verdict: &Verdict, out: &mut [u8]) -> usize {
        // Sound, as above.
        unsafe { molsadriu_refused_line(verdict.number, verdict.place, out.as_mut_ptr(), out.len()) }
    }

    /// What a table is lent to be adjusted into: V, u and adjusted directions, m of each; K, R and Q, n of each.
    pub struct Answers {
        pub corrections: Vec<i64>,
        pub printed: Vec<i64>,
        pub adjusted: Vec<i64>,
        pub correlates: Vec<i64>,
        pub remainders: Vec<i64>,
        pub misses: Vec<i64>,
    }

    /// The adjustment of a condition table, or the verdict that refuses it.
    pub fn adjust_table(directions: &[i64], q: &[i64], a: &[i64], w: &[i64]) -> Result<Answers, Verdict> {
        let (m, n) = (directions.len(), w.len());
        let mut answers = Answers {
            corrections: vec![0; m],
            printed: vec![0; m],
            adjusted: vec![0; m],
            correlates: vec![0; n],
            remainders: vec![0; n],
            misses: vec![0; n],
        };
        // Sound, as above.
        let verdict = unsafe {
            molsadriu_adjust_table(
                directions.as_ptr(),
                directions.len(),
                q.as_ptr(),
                q.len(),
                a.as_ptr(),
                a.len(),
                w.as_ptr(),
                w.len(),
                answers.corrections.as_mut_ptr(),
                m,
                answers.printed.as_mut_ptr(),
                m,
                answers.adjusted.as_mut_ptr(),
                m,
                answers.correlates.as_mut_ptr(),
                n,
                answers.remainders.as_mut_ptr(),
                n,
                answers.misses.as_mut_ptr(),
                n,
            )
        };
        if verdict.number == 0 {
            Ok(answers)
        } else {
            Err(verdict)
        }
    }

    /// The mean and the probable error of a direction, or the verdict that refuses them.
    pub fn probable_error(u: &[i64], q: &[i64], n: usize) -> Result<(i64, i64), Verdict> {
        let (mut mean, mut probable) = (0, 0);
        // Sound, as above.
        let verdict = unsafe {
            molsadriu_probable_error(u.as_ptr(), u.len(), q.as_ptr(), q.len(), n, &mut mean, &mut probable)
        };
        if verdict.number == 0 {
            Ok((mean, probable))
        } else {
            Err(verdict)
        }
    }
}

fn main() -> ExitCode {
    let Some(name) = std::env::args().nth(1) else {
        eprintln!("usage: adjust_net FILE.net");
        return ExitCode::from(2);
    };
    let mut file = match std::fs::read(&name) {
        Ok(file) => file,
        Err(why) => {
            eprintln!("{name}: {why}");
            return ExitCode::FAILURE;
        }
    };
    // One byte more than a file may have is enough to have it refused as too long.
    file.truncate(molsadriu::FILE + 1);
    let mut listing = [0; molsadriu::LISTING];
    let (length, refused) = match molsadriu::adjust_file(&file, &mut listing) {
        Ok(length) => (length, false),
        Err(verdict) => (molsadriu::refused_line(&verdict, &mut listing), true),
    };
    if let Err(why) = std::io::stdout().write_all(&listing[..length]) {
        eprintln!("the listing was not written: {why}");
        return ExitCode::FAILURE;
    }
    if refused {
        return ExitCode::FAILURE;
    }

    match adjust_table() {
        Ok(()) => ExitCode::SUCCESS,
        Err(verdict) => {
            println!("refused: {} at {}", verdict.number, verdict.place);
            ExitCode::FAILURE
        }
    }
}

/// Three directions and one condition between them.
fn adjust_table() -> Result<(), molsadriu::Verdict> {
    let q = [1, 1, 1];
    let answers = molsadriu::adjust_table(&[0, 0, 0], &q, &[-306, 694, -1058], &[-79_200])?;
    let u: Vec<String> = answers.printed.iter().map(i64::to_string).collect();
    println!("u = {}", u.join(", "));
    let (mean, probable) = molsadriu::probable_error(&answers.printed, &q, 1)?;
    println!("mean error {mean}, probable error {probable}");
    Ok(())
}
