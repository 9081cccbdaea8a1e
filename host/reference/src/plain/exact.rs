//! The reference cosine, exact sums, exact places and the exact test, in fractions with no rounding.

use super::packed::{Series, Term};
use super::wide::Wide;
use super::MILLENNIUM;

/// The reference's 2 pi is TWO_PI/10^30.
const TWO_PI: i128 = 6_283_185_307_179_586_476_925_286_766_559;
const TWO_PI_LOWER: i128 = 1_000_000_000_000_000_000_000_000_000_000;
/// Parts in a radian or an AU.
const PARTS: i128 = 100_000_000_000;

/// Two whole numbers, the lower positive.
#[derive(Clone, Debug)]
pub struct Fraction {
    pub upper: Wide,
    pub lower: Wide,
}

/// Reference cosine and sine of one angle, over one lower number, which depends on the angle's lower number alone.
#[derive(Clone, Debug)]
pub struct Reference {
    pub cosine: Wide,
    pub sine: Wide,
    pub lower: Wide,
}

/// 1 - y/(2m(2m + shift)) (1 - ..), m from 1 to 10, as upper and lower number: the power series in y = r^2/e^2 from its end.
fn power_series(r2: &Wide, e2: &Wide, shift: i128) -> (Wide, Wide) {
    let mut upper = Wide::of(1);
    let mut lower = Wide::of(1);
    for m in (1..=10).rev() {
        lower = lower.times(&e2.times_small(2 * m * (2 * m + shift)));
        upper = lower.minus(&upper.times(r2));
    }
    (upper, lower)
}

pub fn reference(x: &Fraction) -> Reference {
    // The quarter is TWO_PI/(4 10^30), so the angle and it are put over e = 4 10^30 times the angle's lower number.
    let e = x.lower.times_small(4 * TWO_PI_LOWER);
    let angle = x.upper.times_small(4 * TWO_PI_LOWER);
    let quarter = x.lower.times_small(TWO_PI);
    let q = angle.times_small(2).plus(&quarter).floor_quotient(&quarter.times_small(2));
    let r = angle.minus(&quarter.times_small(q));
    let (r2, e2) = (r.times(&r), e.times(&e));
    let (even_upper, even_lower) = power_series(&r2, &e2, -1);
    let (odd_upper, _) = power_series(&r2, &e2, 1);
    // Both over 21! e^21.
    let even = even_upper.times(&e).times_small(21);
    let odd = odd_upper.times(&r);
    let lower = even_lower.times(&e).times_small(21);
    let (cosine, sine) = match q.rem_euclid(4) {
        0 => (even, odd),
        1 => (odd.negated(), even),
        2 => (even.negated(), odd.negated()),
        _ => (odd, even.negated()),
    };
    Reference { cosine, sine, lower }
}

/// The greatest number that divides both; neither is negative.
pub fn common_factor(a: i64, b: i64) -> i64 {
    if b == 0 {
        a
    } else {
        common_factor(b, a % b)
    }
}

/// tau as a fraction in lowest terms.
fn tau(t: i64) -> (i128, i128) {
    let factor = common_factor(t.abs(), MILLENNIUM);
    ((t / factor) as i128, (MILLENNIUM / factor) as i128)
}

/// b + c tau, in radians. Its lower number depends on t alone.
pub fn exact_angle(b: i64, c: i64, t: i64) -> Fraction {
    let (tau_upper, tau_lower) = tau(t);
    Fraction {
        upper: Wide::of(b as i128 * tau_lower).plus(&Wide::of(c as i128 * tau_upper)),
        lower: Wide::of(PARTS * tau_lower),
    }
}

/// The exact sum of one coordinate's six blocks. Its lower number depends on t alone.
pub fn exact_sum(blocks: &[Vec<Term>], t: i64) -> Fraction {
    let (tau_upper, tau_lower) = tau(t);
    let mut upper = Wide::of(0);
    for (power, block) in (0..).zip(blocks) {
        let mut sum = Wide::of(0);
        for term in block {
            sum = sum.plus(&reference(&exact_angle(term.b, term.c, t)).cosine.times_small(term.a as i128));
        }
        let tau_power = Wide::of(tau_upper).power(power).times(&Wide::of(tau_lower).power(5 - power));
        upper = upper.plus(&sum.times(&tau_power));
    }
    let lower = reference(&exact_angle(0, 0, t)).lower.times(&Wide::of(tau_lower).power(5)).times_small(PARTS);
    Fraction { upper, lower }
}

/// R cos B cos L, R cos B sin L and R sin B, times a positive number that depends on t alone.
fn exact_place(series: &Series, t: i64) -> [Wide; 3] {
    let l = reference(&exact_sum(&series.blocks[..6], t));
    let b = reference(&exact_sum(&series.blocks[6..12], t));
    let r = exact_sum(&series.blocks[12..], t).upper;
    let flat = r.times(&b.cosine);
    [flat.times(&l.cosine), flat.times(&l.sine), r.times(&b.sine).times(&l.lower)]
}

fn scalar_product(a: &[Wide; 3], b: &[Wide; 3]) -> Wide {
    a[0].times(&b[0]).plus(&a[1].times(&b[1])).plus(&a[2].times(&b[2]))
}

/// What the exact test compares at one instant: the scalar product of the exact vectors to the Sun and to the planet, its
/// square, and the product of both squared lengths.
pub struct Sight {
    scalar: Wide,
    scalar_squared: Wide,
    lengths_squared: Wide,
}

impl Sight {
    pub fn at(planet: &Series, earth: &Series, t: i64) -> Sight {
        let planet = exact_place(planet, t);
        let earth = exact_place(earth, t);
        let sun = [0, 1, 2].map(|i| earth[i].negated());
        let seen = [0, 1, 2].map(|i| planet[i].minus(&earth[i]));
        let scalar = scalar_product(&sun, &seen);
        Sight {
            scalar_squared: scalar.times(&scalar),
            lengths_squared: scalar_product(&sun, &sun).times(&scalar_product(&seen, &seen)),
            scalar,
        }
    }

    /// The exact test for k arcminutes.
    pub fn within(&self, k: i64) -> bool {
        let angle = Fraction {
            upper: Wide::of(TWO_PI).times_small(k as i128),
            lower: Wide::of(TWO_PI_LOWER).times_small(21_600),
        };
        let r = reference(&angle);
        let left = self.scalar_squared.times(&r.lower.times(&r.lower));
        let right = self.lengths_squared.times(&r.cosine.times(&r.cosine));
        self.scalar.is_positive() && right.at_most(&left)
    }
}
