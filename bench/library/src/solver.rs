//! The yardstick: local circumstances in double precision by the textbook iteration, with no window, guard or proof. It is our own code and
//! shares none with the library or the reference.

use reference::request::Request;

/// The elements in radians, radii of the Earth and hours, and the station's place.
pub struct Eclipse {
    x: [f64; 4],
    y: [f64; 4],
    d: [f64; 3],
    l: [[f64; 3]; 2],
    mu: [f64; 3],
    tan_f: [f64; 2],
    place: [f64; 2],
    longitude: f64,
}

/// Where the axis is from the station at an hour, how fast it moves, and the radii of both cones.
struct Moment {
    u: f64,
    v: f64,
    du: f64,
    dv: f64,
    l: [f64; 2],
}

/// The closest instant, and the contacts of penumbra and central shadow, in hours; NaN where there is none.
#[derive(Clone, Copy, Debug)]
pub struct Circumstances {
    pub closest: f64,
    pub contacts: [[f64; 2]; 2],
}

fn scaled<const N: usize>(numbers: [i64; N], unit: f64) -> [f64; N] {
    numbers.map(|n| n as f64 * unit)
}

fn cubic(c: &[f64; 4], t: f64) -> (f64, f64) {
    (c[0] + t * (c[1] + t * (c[2] + t * c[3])), c[1] + t * (2.0 * c[2] + t * 3.0 * c[3]))
}

fn quadratic(c: &[f64; 3], t: f64) -> (f64, f64) {
    (c[0] + t * (c[1] + t * c[2]), c[1] + t * 2.0 * c[2])
}

impl Eclipse {
    pub fn of(request: &Request) -> Eclipse {
        let (e, s) = (&request.elements, &request.station);
        let degree = 1e-6_f64.to_radians();
        let (sine, cosine) = (s.latitude as f64 * degree).sin_cos();
        // Krasovsky's spheroid
        let flat = 0.993_306_58;
        let c = 1.0 / (cosine * cosine + flat * sine * sine).sqrt();
        let h = s.height as f64 / 6_378_245.0;
        Eclipse {
            x: scaled(e.x, 1e-8),
            y: scaled(e.y, 1e-8),
            d: scaled(e.d, degree),
            l: [scaled(e.l1, 1e-8), scaled(e.l2, 1e-8)],
            mu: scaled(e.mu, degree),
            tan_f: [e.tan_f1 as f64 * 1e-8, e.tan_f2 as f64 * 1e-8],
            place: [(c + h) * cosine, (c * flat + h) * sine],
            longitude: (s.longitude as f64 - s.delta_t as f64 * 41.7807) * degree,
        }
    }

    fn at(&self, t: f64) -> Moment {
        let (x, dx) = cubic(&self.x, t);
        let (y, dy) = cubic(&self.y, t);
        let (d, dd) = quadratic(&self.d, t);
        let (mu, dmu) = quadratic(&self.mu, t);
        let (sin_d, cos_d) = d.sin_cos();
        let (sin_h, cos_h) = (mu + self.longitude).sin_cos();
        let [r, p] = self.place;
        let xi = r * sin_h;
        let eta = p * cos_d - r * cos_h * sin_d;
        let zeta = p * sin_d + r * cos_h * cos_d;
        let radius = |k: usize| quadratic(&self.l[k], t).0 - zeta * self.tan_f[k];
        Moment {
            u: x - xi,
            v: y - eta,
            du: dx - dmu * r * cos_h,
            dv: dy - (dmu * xi * sin_d - zeta * dd),
            l: [radius(0), radius(1).abs()],
        }
    }

    /// The closest instant by Newton's method, each contact by the usual correction from there.
    pub fn circumstances(&self) -> Circumstances {
        let mut closest = 0.0;
        for _ in 0..20 {
            let m = self.at(closest);
            let step = (m.u * m.du + m.v * m.dv) / (m.du * m.du + m.dv * m.dv);
            closest -= step;
            if step.abs() < 1e-6 {
                break;
            }
        }
        let contact = |k: usize, sign: f64| {
            let mut t = closest;
            for _ in 0..20 {
                let m = self.at(t);
                let n2 = m.du * m.du + m.dv * m.dv;
                let across = (m.u * m.dv - m.v * m.du) / (n2.sqrt() * m.l[k]);
                let step = sign * m.l[k] * (1.0 - across * across).sqrt() / n2.sqrt() - (m.u * m.du + m.v * m.dv) / n2;
                t += step;
                // also where there is none
                if step.is_nan() || step.abs() < 1e-6 {
                    break;
                }
            }
            t
        };
        Circumstances {
            closest,
            contacts: [0, 1].map(|k| [contact(k, -1.0), contact(k, 1.0)]),
        }
    }
}
