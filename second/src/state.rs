//! The states of the MS side, with all that hangs on a state alone: its number
//! in a log (document 01, "The log"; document 02, A5), its code in a call state
//! element (table 9.3 of either standard), the row of parameters that entering
//! it sets (6.1.2.1.2 to 6.1.2.1.9) and, for broadcast calls, the transaction
//! flag that received messages carry in it (document 01, rule 1). What group
//! calls share with broadcast calls, every state but U2 and U6, is the same in both.

#[derive(Clone, Copy, PartialEq, Eq, Debug)]
pub enum State {
    U0,
    U0p,
    U1,
    U2,
    U3,
    U4,
    U5,
    U6,
    // The sub-states of U2 in a group call, in the order of 24.068.
    U2sl,
    U2wr,
    U2r,
    U2ws,
    U2sr,
    U2nc,
}

use State::*;

/// Every state, placed by its number in a log.
const STATES: [State; 14] = [
    U0, U0p, U1, U2, U3, U4, U5, U6, U2sl, U2wr, U2r, U2ws, U2sr, U2nc,
];

/// Those of a broadcast call, each placed by its number.
pub const BROADCAST_STATES: [State; 8] = [U0, U0p, U1, U2, U3, U4, U5, U6];
/// Those of a group call: 3 and 7 are no numbers there.
pub const GROUP_STATES: [State; 12] = [U0, U0p, U1, U3, U4, U5, U2sl, U2wr, U2r, U2ws, U2sr, U2nc];
/// Those of them that are one U2.
pub const SUB_STATES: [State; 6] = [U2sl, U2wr, U2r, U2ws, U2sr, U2nc];

/// The four parameters of 6.1.2.1.1, in the order of document 01.
#[derive(Clone, Copy, PartialEq, Eq, Debug)]
pub struct Parameters {
    pub orig: bool,
    pub comm: bool,
    pub d_att: bool,
    pub u_att: bool,
}

const T: Option<bool> = Some(true);
const F: Option<bool> = Some(false);
/// Keeps its value.
const K: Option<bool> = None;

/// Start rows ORIG, COMM, D-ATT, U-ATT, one row a state, in the order of STATES.
const START_ROWS: [[Option<bool>; 4]; 14] = [
    [F, F, F, F], // U0,   6.1.2.1.2
    [T, F, F, F], // U0.p, 6.1.2.1.3
    [T, T, F, F], // U1,   6.1.2.1.4
    [T, T, T, T], // U2,   6.1.2.1.5
    [F, F, F, F], // U3,   6.1.2.1.6
    [F, F, F, F], // U4,   6.1.2.1.7
    [T, T, T, T], // U5,   6.1.2.1.8
    [F, F, T, F], // U6,   6.1.2.1.9
    [K, T, T, T], // U2sl, 6.1.2.1.9.1 of 24.068
    [K, T, T, F], // U2wr, 6.1.2.1.9.2
    [K, F, T, F], // U2r,  6.1.2.1.9.3
    [K, F, T, T], // U2ws, 6.1.2.1.9.4
    [K, K, T, T], // U2sr, 6.1.2.1.9.5
    [K, F, T, T], // U2nc, 6.1.2.1.9.6
];

impl State {
    pub fn number(self) -> u8 {
        match self {
            U0 => 0,
            U0p => 1,
            U1 => 2,
            U2 => 3,
            U3 => 4,
            U4 => 5,
            U5 => 6,
            U6 => 7,
            U2sl => 8,
            U2wr => 9,
            U2r => 10,
            U2ws => 11,
            U2sr => 12,
            U2nc => 13,
        }
    }

    pub fn from_number(number: u8) -> Option<State> {
        STATES.get(usize::from(number)).copied()
    }

    /// The integer N of table 9.3. U0.p stands there behind U5, not behind U0,
    /// and U2sl where a broadcast call has U2.
    pub fn call_state(self) -> u8 {
        match self {
            U0 => 0,
            U1 => 1,
            U2 | U2sl => 2,
            U3 => 3,
            U4 => 4,
            U5 => 5,
            U0p => 6,
            U6 | U2wr => 7,
            U2r => 8,
            U2ws => 9,
            U2sr => 10,
            U2nc => 11,
        }
    }

    /// The row that entering sets, where it sets all four; what a row keeps is false here.
    pub fn start_row(self) -> Parameters {
        Parameters::from_number(0).on_entering(self)
    }

    /// The flag that a received message of a broadcast call must carry. It
    /// follows the state and never ORIG, because SET PARAMETER can clear ORIG in
    /// the middle of a call that we began. In U0 no message is looked at, so U0
    /// has no flag, nor has a state that such a call does not know.
    pub fn received_flag(self) -> Option<u8> {
        match self {
            U0p | U1 | U2 | U5 => Some(1),
            U3 | U4 | U6 => Some(0),
            _ => None,
        }
    }
}

impl Parameters {
    /// What entering a state makes of them.
    pub fn on_entering(self, state: State) -> Parameters {
        let [orig, comm, d_att, u_att] = START_ROWS[usize::from(state.number())];
        Parameters {
            orig: orig.unwrap_or(self.orig),
            comm: comm.unwrap_or(self.comm),
            d_att: d_att.unwrap_or(self.d_att),
            u_att: u_att.unwrap_or(self.u_att),
        }
    }

    /// 8 ORIG + 4 COMM + 2 D-ATT + U-ATT, as a log has them.
    pub fn number(self) -> u8 {
        8 * u8::from(self.orig)
            + 4 * u8::from(self.comm)
            + 2 * u8::from(self.d_att)
            + u8::from(self.u_att)
    }

    /// The reverse of `number`, for 0 to 15.
    pub fn from_number(number: u8) -> Parameters {
        Parameters {
            orig: number & 8 != 0,
            comm: number & 4 != 0,
            d_att: number & 2 != 0,
            u_att: number & 1 != 0,
        }
    }

    /// The state attributes element, 9.4.6: DA UA COMM OI, DA the highest bit.
    pub fn attributes(self) -> u8 {
        8 * u8::from(self.d_att)
            + 4 * u8::from(self.u_att)
            + 2 * u8::from(self.comm)
            + u8::from(self.orig)
    }

    /// The reverse of `attributes`, for 0 to 15.
    pub fn from_attributes(attributes: u8) -> Parameters {
        Parameters {
            d_att: attributes & 8 != 0,
            u_att: attributes & 4 != 0,
            comm: attributes & 2 != 0,
            orig: attributes & 1 != 0,
        }
    }

    /// 6.1.2.1.11 of either standard: what is not named there is consistent.
    pub fn consistent_with(self, state: State) -> bool {
        let orig_wrong = self.orig && matches!(state, U3 | U4 | U6);
        let comm_wrong = self.comm && matches!(state, U0 | U3 | U4 | U6 | U2r | U2nc);
        !orig_wrong && !comm_wrong
    }
}
