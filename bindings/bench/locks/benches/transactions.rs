//! Times the cases with criterion.

use criterion::{criterion_group, criterion_main, Criterion};
use locktable_locks::CASES;

fn transactions(criterion: &mut Criterion) {
    for case in CASES {
        case.run(|transact| {
            criterion.bench_function(case.name, |bencher| bencher.iter(&mut *transact));
        });
    }
}

criterion_group!(benches, transactions);
criterion_main!(benches);
