//! Random lawful states that no journal has built.

use crate::random::Random;
use crate::sets::{own, Attachment, Grant, Held, Role, Session, Sets, Trust};

/// Lawful sets of any size up to all issuers with all they can own.
pub fn lawful_sets(random: &mut Random) -> Sets {
    let mut sets = Sets::default();
    let issuers = random.pick(&[1, 2, 3, 4, 5, 16]);
    let thick = random.between(1, 100);
    // The more issuers, the fewer links, so that reading them stays quick.
    let thin = random.between(0, 60 / issuers);
    sets.enrolled.extend(random.names(issuers));
    for &i in &sets.enrolled {
        for &j in &sets.enrolled {
            if i == j || random.percent(thick) {
                sets.trust.insert(Trust {
                    trustor: i,
                    trustee: j,
                });
            }
        }
        for n in 0..16 {
            if random.percent(thick) {
                sets.users.insert(own(i, n));
            }
            if random.percent(thick) {
                sets.roles.insert(own(i, n));
            }
            if random.percent(thick) {
                sets.permissions.insert(own(i, n));
            }
        }
    }
    for &role in &sets.roles {
        if random.percent(thick) {
            sets.public.insert(role);
        }
    }
    // Users that hold little reach more than they hold.
    let holding = random.pick(&[thick, 10]);
    for &user in &sets.users {
        for role in sets.roles.iter().filter(|role| role.issuer == user.issuer) {
            if random.percent(holding) {
                let role = role.number;
                sets.held.insert(Held { user, role });
            }
        }
    }
    // Juniors come after their seniors in a random order, so there is no circle.
    let mut order: Vec<(u64, Role)> = Vec::new();
    order.extend(sets.roles.iter().map(|&role| (random.next(), role)));
    order.sort();
    for (place, &(_, senior)) in order.iter().enumerate() {
        for &(_, junior) in &order[place + 1..] {
            if sets.may_link(senior, junior.issuer) && random.percent(thin) {
                sets.attachments.insert(Attachment { senior, junior });
            }
        }
        for &permission in &sets.permissions {
            let role = senior;
            if sets.may_link(role, permission.issuer) && random.percent(thin) {
                sets.grants.insert(Grant { role, permission });
            }
        }
    }
    for &user in &sets.users {
        if random.percent(thick) {
            let reach = sets.within_reach(user).into_iter();
            let session = Session {
                user: user.number,
                active: reach.filter(|role| role % 3 != 1).collect(),
            };
            sets.sessions
                .insert(own(user.issuer, random.below(16)), session);
        }
    }
    sets
}
