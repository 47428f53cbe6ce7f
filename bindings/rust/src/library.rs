//! The exported functions of the proved library, and the only unsafe code: what each asks is that the memory named is there.

mod exported {
    extern "C" {
        pub fn gemandrolo_length(servers: usize, slots: usize, clients: usize) -> usize;
        pub fn gemandrolo_open(
            mem: *mut u8,
            bytes: usize,
            servers: usize,
            slots: usize,
            clients: usize,
        ) -> u64;
        #[allow(clippy::too_many_arguments)]
        pub fn gemandrolo_step(
            mem: *mut u8,
            bytes: usize,
            out: *mut u8,
            out_bytes: usize,
            kind: u64,
            client: u64,
            op: u64,
            key: u64,
            value: u64,
            server: u64,
            a: *mut u64,
            b: *mut u64,
        ) -> u64;
        pub fn gemandrolo_run(
            mem: *mut u8,
            bytes: usize,
            out: *mut u8,
            out_bytes: usize,
            steps: *const [u64; 6],
            count: usize,
            outcomes: *mut u64,
            words: usize,
        );
    }
}

/// The bytes that sizes call for, or 0 where they are refused.
pub fn length(servers: usize, slots: usize, clients: usize) -> usize {
    // SAFETY: numbers only.
    unsafe { exported::gemandrolo_length(servers, slots, clients) }
}

/// 0, or the number by which the opening is refused.
pub fn open(memory: &mut [u8], servers: usize, slots: usize, clients: usize) -> u64 {
    // SAFETY: the slice is there and lent to be written, and the library keeps no pointer.
    unsafe { exported::gemandrolo_open(memory.as_mut_ptr(), memory.len(), servers, slots, clients) }
}

/// The three numbers of the step's outcome. A list writes its pairs to the output.
#[inline]
pub fn step(memory: &mut [u8], output: &mut [u8], words: [u64; 6]) -> [u64; 3] {
    let [kind, client, op, key, value, server] = words;
    let (mut a, mut b) = (0, 0);
    // SAFETY: both slices are there and lent to be written, an empty one's pointer is not null, and no two overlap; a and b are there for the
    // call.
    let outcome = unsafe {
        exported::gemandrolo_step(
            memory.as_mut_ptr(),
            memory.len(),
            output.as_mut_ptr(),
            output.len(),
            kind,
            client,
            op,
            key,
            value,
            server,
            &mut a,
            &mut b,
        )
    };
    [outcome, a, b]
}

/// Steps front to back, all lent the same output; the three numbers of each outcome.
pub fn run(memory: &mut [u8], output: &mut [u8], steps: &[[u64; 6]]) -> Vec<[u64; 3]> {
    let mut lines = vec![[0; 3]; steps.len()];
    let outcomes = lines.as_flattened_mut();
    // SAFETY: four slices, each there for the call, the three written ones lent to be written.
    unsafe {
        exported::gemandrolo_run(
            memory.as_mut_ptr(),
            memory.len(),
            output.as_mut_ptr(),
            output.len(),
            steps.as_ptr(),
            steps.len(),
            outcomes.as_mut_ptr(),
            outcomes.len(),
        )
    };
    lines
}
