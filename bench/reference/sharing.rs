//! The two sharing methods of docs/SHARING.md.

#[derive(Clone, Copy)]
pub enum Method {
    Arrival,
    Turns,
}

/// The most that a claimant takes in one turn.
const TURN: u32 = 100;

impl Method {
    pub fn lot(self) -> u32 {
        match self {
            Method::Arrival => 1,
            Method::Turns => TURN,
        }
    }

    /// Divides `amount` among the claims: `gifts[i]` becomes the gift for `claims[i]`.
    pub fn share(self, amount: u64, claims: &[u32], gifts: &mut [u32]) {
        match self {
            Method::Arrival => by_arrival(amount, claims, gifts),
            Method::Turns => by_turns(amount, claims, gifts),
        }
    }
}

/// The lesser of a claim, or a part of one, and what is left. It fits 32 bits since the claim does.
fn portion(claim: u32, left: u64) -> u32 {
    u64::from(claim).min(left) as u32
}

/// Claims are served whole, first to last, until the amount is spent.
fn by_arrival(amount: u64, claims: &[u32], gifts: &mut [u32]) {
    let mut left = amount;
    for (gift, &claim) in gifts.iter_mut().zip(claims) {
        *gift = portion(claim, left);
        left -= u64::from(*gift);
    }
}

/// In rounds, first to last, each claimant still short takes at most one turn.
fn by_turns(amount: u64, claims: &[u32], gifts: &mut [u32]) {
    gifts.fill(0);
    let mut left = amount;
    loop {
        let before = left;
        for (gift, &claim) in gifts.iter_mut().zip(claims) {
            if *gift == claim {
                continue;
            }
            let turn = portion(TURN.min(claim - *gift), left);
            *gift += turn;
            left -= u64::from(turn);
            if left == 0 {
                return;
            }
        }
        // A round that gave nothing: nobody is short.
        if left == before {
            return;
        }
    }
}

#[cfg(test)]
mod tests {
    use super::*;

    fn shared(method: Method, amount: u64, claims: &[u32]) -> Vec<u32> {
        let mut gifts = vec![7; claims.len()];
        method.share(amount, claims, &mut gifts);
        gifts
    }

    #[test]
    fn divides_as_the_docs_show() {
        assert_eq!(shared(Method::Arrival, 250, &[300, 50, 200]), [250, 0, 0]);
        assert_eq!(shared(Method::Turns, 250, &[300, 50, 200]), [100, 50, 100]);
    }

    #[test]
    fn spends_the_lesser_of_amount_and_claims() {
        for method in [Method::Arrival, Method::Turns] {
            assert_eq!(shared(method, 1_000, &[300, 0, 50]), [300, 0, 50]);
            assert_eq!(shared(method, 0, &[300, 50]), [0, 0]);
            assert_eq!(shared(method, 5, &[]), []);
        }
    }

    #[test]
    fn turns_end_in_mid_round() {
        assert_eq!(
            shared(Method::Turns, 430, &[150, 0, 300, 300]),
            [150, 0, 180, 100]
        );
    }
}
