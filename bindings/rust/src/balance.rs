//! Balances.

use crate::ffi;
use crate::refusal::{accepted, Refusal};

/// The most tokens of a balance.
pub const MAX_TOKENS: usize = 128;

/// A box of no more tokens is passed on without an allocation.
const FEW_TOKENS: usize = 4;

/// A token id and an amount.
#[derive(Clone, Copy, Debug, PartialEq, Eq)]
pub struct Token {
    /// The token's id.
    pub id: [u8; 32],
    /// Its amount.
    pub amount: i64,
}

/// NanoErgs and up to 128 tokens.
///
/// ```
/// use ergo_index::{Balance, Refusal, Token};
/// let token = Token { id: [1; 32], amount: 5 };
/// let mut balance = Balance::new();
/// balance.add_box(1_500_000, &[token])?;
/// assert_eq!((balance.nano_ergs(), balance.amount_of(&[1; 32])), (1_500_000, Some(5)));
/// assert_eq!(balance.add_box(i64::MAX, &[]), Err(Refusal::AmountOutOfRange));
///
/// balance.subtract_box(2_000_000, &[token])?;
/// assert_eq!((balance.nano_ergs(), balance.len()), (0, 0));
/// # Ok::<(), Refusal>(())
/// ```
#[derive(Clone, Debug)]
pub struct Balance {
    pub(crate) ids: Box<[u8; 32 * MAX_TOKENS]>,
    pub(crate) amounts: Box<[i64; MAX_TOKENS]>,
    pub(crate) count: usize,
    pub(crate) nanos: i64,
}

type BoxCall = unsafe extern "C" fn(*mut u8, *mut i64, *mut usize, *mut i64, i64, *const u8, usize, *const i64, usize, usize) -> u8;

impl Balance {
    /// No nanoErgs and no token.
    pub fn new() -> Self {
        Balance { ids: Box::new([0; 32 * MAX_TOKENS]), amounts: Box::new([0; MAX_TOKENS]), count: 0, nanos: 0 }
    }

    /// The nanoErgs.
    pub fn nano_ergs(&self) -> i64 {
        self.nanos
    }

    /// How many tokens are held.
    pub fn len(&self) -> usize {
        self.count
    }

    /// Whether no token is held.
    pub fn is_empty(&self) -> bool {
        self.count == 0
    }

    /// The tokens, in the order in which their ids came.
    pub fn tokens(&self) -> impl Iterator<Item = Token> + '_ {
        self.ids.chunks_exact(32).zip(self.amounts.iter()).take(self.count).map(|(bytes, &amount)| {
            let mut id = [0; 32];
            id.copy_from_slice(bytes);
            Token { id, amount }
        })
    }

    /// The amount of a token, if it is held.
    pub fn amount_of(&self, id: &[u8; 32]) -> Option<i64> {
        self.tokens().find(|token| token.id == *id).map(|token| token.amount)
    }

    fn change(&mut self, call: BoxCall, nanos: i64, tokens: &[Token]) -> Result<(), Refusal> {
        if tokens.len() <= FEW_TOKENS {
            let (mut ids, mut amounts) = ([0; 32 * FEW_TOKENS], [0; FEW_TOKENS]);
            for (place, token) in tokens.iter().enumerate() {
                ids[32 * place..32 * place + 32].copy_from_slice(&token.id);
                amounts[place] = token.amount;
            }
            return self.change_by(call, nanos, &ids[..32 * tokens.len()], &amounts[..tokens.len()]);
        }
        let ids: Vec<u8> = tokens.iter().flat_map(|token| token.id).collect();
        let amounts: Vec<i64> = tokens.iter().map(|token| token.amount).collect();
        self.change_by(call, nanos, &ids, &amounts)
    }

    fn change_by(&mut self, call: BoxCall, nanos: i64, ids: &[u8], amounts: &[i64]) -> Result<(), Refusal> {
        // SAFETY: each pointer comes from a live borrow, each length is that of its slice or array, and nothing that is written overlaps anything else.
        accepted(unsafe {
            call(
                self.ids.as_mut_ptr(),
                self.amounts.as_mut_ptr(),
                &mut self.count,
                &mut self.nanos,
                nanos,
                ids.as_ptr(),
                ids.len(),
                amounts.as_ptr(),
                amounts.len(),
                amounts.len(),
            )
        })
    }

    /// Adds a box: its nanoErgs, then its tokens in list order; a new id goes last. Refused by 23, 24.
    pub fn add_box(&mut self, nanos: i64, tokens: &[Token]) -> Result<(), Refusal> {
        self.change(ffi::ergo_index_add_box, nanos, tokens)
    }

    /// Subtracts a box: its nanoErgs, which stop at 0, then its tokens in list order; a token at 0 or below is dropped, an unknown id ignored.
    /// Refused by 23.
    pub fn subtract_box(&mut self, nanos: i64, tokens: &[Token]) -> Result<(), Refusal> {
        self.change(ffi::ergo_index_subtract_box, nanos, tokens)
    }
}

impl Default for Balance {
    fn default() -> Self {
        Balance::new()
    }
}

impl PartialEq for Balance {
    fn eq(&self, other: &Self) -> bool {
        self.nanos == other.nanos && self.tokens().eq(other.tokens())
    }
}

impl Eq for Balance {}

/// The milliErgs of an amount of nanoErgs, rounded to the nearest, an exact half to the even neighbour.
///
/// ```
/// assert_eq!(ergo_index::statement_milli_ergs(500_000), 0);
/// assert_eq!(ergo_index::statement_milli_ergs(1_500_000), 2);
/// assert_eq!(ergo_index::statement_milli_ergs(-1_500_000), -2);
/// assert_eq!(ergo_index::statement_milli_ergs(i64::MAX), 9_223_372_036_855);
/// ```
pub fn statement_milli_ergs(nano_ergs: i64) -> i64 {
    // SAFETY: a number goes in and a number comes out.
    unsafe { ffi::ergo_index_statement_milli_ergs(nano_ergs) }
}
