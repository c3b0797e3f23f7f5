//! The static library's functions for Rust; `include/lane.h` says what each
//! of them does.

/// The five values of an answer.
pub type Values = [u64; 5];

/// `fn safe = lane_function(bytes..; numbers..; buffer)`: the function's C form
/// and a safe one, which gives the refusal's number, 0 for none.
macro_rules! calls {
    ($(fn $safe:ident = $function:ident($($bytes:ident),+; $($number:ident),*; $($buffer:ident)?);)+) => {$(
        #[inline]
        pub fn $safe(
            $($bytes: &[u8],)+
            $($number: usize,)*
            $($buffer: &mut [u8],)?
            answer: &mut Values,
        ) -> u32 {
            extern "C" {
                fn $function(
                    $($bytes: *const u8, _: usize,)+
                    $($number: usize,)*
                    $($buffer: *mut u8, _: usize,)?
                    answer: *mut u64,
                ) -> u32;
            }
            // SAFETY: slices, buffer and answer live through the call.
            unsafe {
                $function(
                    $($bytes.as_ptr(), $bytes.len(),)+
                    $($number,)*
                    $($buffer.as_mut_ptr(), $buffer.len(),)?
                    answer.as_mut_ptr(),
                )
            }
        }
    )+};
}

calls! {
    fn netlist = lane_netlist(netlist; ; );
    fn list = lane_list(netlist, list; ; );
    fn full = lane_full(netlist, list; change; buffer);
    fn forward = lane_forward(netlist, list; change; buffer);
    fn core = lane_core(netlist, list; change, output; );
    fn full_all = lane_full_all(netlist, list; ; buffer);
    fn forward_all = lane_forward_all(netlist, list; ; buffer);
    fn core_all = lane_core_all(netlist, list; ; buffer);
    fn walk = lane_walk(netlist; ; );
    fn step = lane_step(netlist; number, place, count; );
}

extern "C" {
    fn lane_join(operation: u8, a: u8, b: u8) -> u8;
    fn lane_invert(a: u8) -> u8;
}

pub fn join(operation: u8, a: u8, b: u8) -> u8 {
    // SAFETY: plain values in and out.
    unsafe { lane_join(operation, a, b) }
}

pub fn invert(a: u8) -> u8 {
    // SAFETY: plain values in and out.
    unsafe { lane_invert(a) }
}
