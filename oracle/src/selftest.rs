//! The known outcomes of the rules (docs/RULES.md), asked of the original.
use crate::case::{self, Case};
use crate::ckb::{funding::funding_tx::*, held_cells as held};
use crate::original::{
    panics::{caught, Cause},
    request::{Answer, Request},
    update::Verdict,
    Refusal,
};
use crate::standins::{
    bytes,
    chain::DESK,
    packed::{self, *},
    sdk::traits::LiveCell,
    view::{prelude::*, Capacity},
};
use std::collections::HashSet;

pub fn script(code: u8, args: usize) -> Script {
    let v = crate::standins::molecule::write_table(&[&[code; 32][..], &[0], &[&(args as u32).to_le_bytes()[..], &vec![0; args]].concat()]);
    Script::read(&v).unwrap()
}
pub fn point(n: u32) -> OutPoint {
    let mut v = vec![0; 32];
    v.extend(n.to_le_bytes());
    OutPoint::read(&v).unwrap()
}
pub fn dep(n: u8) -> CellDep {
    CellDep::read(&[n; 37]).unwrap()
}
pub fn output(cap: u64, lock: &Script, t: Option<&Script>) -> CellOutput {
    CellOutput::new_builder().capacity(Capacity::shannons(cap).pack()).lock(lock.clone()).type_(t.cloned().pack()).build()
}
pub fn data(b: &[u8]) -> packed::Bytes {
    b.pack()
}
pub fn header(n: u8) -> Byte32 {
    Byte32::read(&[n; 32]).unwrap()
}
pub fn tx(inputs: usize, outputs: &[CellOutput], d: &[packed::Bytes], deps: usize, witnesses: &[packed::Bytes]) -> Vec<u8> {
    tx_with_headers(0, inputs, outputs, d, deps, witnesses)
}
pub fn tx_with_headers(
    headers: usize,
    inputs: usize,
    outputs: &[CellOutput],
    d: &[packed::Bytes],
    deps: usize,
    witnesses: &[packed::Bytes],
) -> Vec<u8> {
    let i: Vec<_> = (0..inputs).map(|n| CellInput::new(point(n as u32), 0)).collect();
    let c: Vec<_> = (0..deps).map(|n| dep(n as u8)).collect();
    let h: Vec<_> = (0..headers).map(|n| header(n as u8)).collect();
    Transaction::assemble(0, &c, &h, &i, outputs, d, witnesses).as_slice().to_vec()
}
fn rec(o: &CellOutput, d: &[u8]) -> Option<(Vec<u8>, Vec<u8>)> {
    Some((o.as_slice().to_vec(), d.to_vec()))
}
fn hex(s: &str) -> String {
    s.into()
}
struct Tally(usize, usize);
impl Tally {
    fn eq(&mut self, what: &str, got: impl std::fmt::Debug, want: impl std::fmt::Debug) {
        let (g, w) = (format!("{got:?}"), format!("{want:?}"));
        if g == w {
            self.0 += 1
        } else {
            self.1 += 1;
            println!("FAIL {what}: got {g}, want {w}")
        }
    }
    /// By the writing and reading of the case file where it fits, directly otherwise.
    fn case(&mut self, what: &str, c: &Case, want: &str) {
        let f = c.write();
        let got = if f.len() <= case::LIMIT { case::run(&f) } else { c.judge() };
        self.eq(what, got.to_string(), hex(want));
    }
}
pub fn run() {
    let mut t = Tally(0, 0);
    let (l, s, ty) = (script(0, 0), script(1, 0), script(2, 32));
    t.eq("empty", Transaction::default().as_slice().len(), 68);
    t.eq("empty size", Transaction::default().serialized_size_in_block(), 72);
    t.eq(
        "hash of nothing",
        bytes::Bytes::from(crate::standins::blake2b::blake2b_256(b"").to_vec()),
        bytes::Bytes::from({
            let h = "44f4c69744d5f8c55d642062949dcae49bc4e7ef43d388c5a12f42b5633d163e";
            (0..32).map(|i| u8::from_str_radix(&h[2 * i..2 * i + 2], 16).unwrap()).collect::<Vec<u8>>()
        }),
    );

    let one = tx(1, &[output(10_000_000_000, &l, None)], &[data(b"")], 0, &[]);
    let c = Case {
        peer: one.clone(),
        lock: l.as_slice().to_vec(),
        source: s.as_slice().to_vec(),
        rate: 1000,
        records: vec![rec(&output(10_000_000_205, &l, None), b"")],
        ..Default::default()
    };
    t.eq("201 bytes", one.len(), 201);
    let f = c.write();
    let mut words = vec![];
    let mut at = 0;
    while at < f.len() {
        let w = u32::from_le_bytes(f[at..at + 4].try_into().unwrap());
        words.push(format!("{w:08X}"));
        at += 4 + ((w & 0xfffffff) as usize).next_multiple_of(4);
    }
    t.eq("words", words, ["200000C9", "30000035", "50000035", "60000008", "7000004D", "80000000"]);
    t.case("first", &c, "0 000000000000000000000000000000cd");
    let mut d = c.clone();
    d.records = vec![rec(&output(10_000_000_204, &l, None), b"")];
    t.case("one less", &d, "8 204 205 1000 205");
    d.rate = 1005;
    t.case("1005", &d, "8 204 206 1005 205");
    let mut d = c.clone();
    d.ours = one.clone();
    d.records = vec![];
    t.case("itself", &d, "0 00000000000000000000000000000000");
    // Limits, from none: what passes the limits is judged further, so only 4 or not 4 is looked at.
    let four = |t: &mut Tally, what: &str, peer: Vec<u8>, want: bool| {
        let v = Case { peer, ..c.clone() }.judge().to_string();
        t.eq(what, v == "4", want);
    };
    let o = output(10_000_000_000, &l, None);
    for n in [3, 4] {
        four(&mut t, "outputs", tx(1, &vec![o.clone(); n], &vec![data(b""); n], 0, &[]), n == 4);
        four(&mut t, "inputs", tx(61 + n, std::slice::from_ref(&o), &[data(b"")], 0, &[]), n == 4);
        four(&mut t, "deps", tx(1, std::slice::from_ref(&o), &[data(b"")], 5 + n, &[]), n == 4);
        let big = tx(1, std::slice::from_ref(&o), &[data(b"")], 0, &[data(&vec![0; 133_116 - 201 - 8 + (n - 3)])]);
        t.eq("bytes", big.len(), 133_113 + n);
        four(&mut t, "bytes", big, n == 4);
    }
    // The original has no limit on header deps; by the request W6 two may be added.
    for (n, number) in [(2, "0"), (3, "4")] {
        let peer = tx_with_headers(n, 1, &[output(100, &l, None)], &[data(b"")], 0, &[]);
        let d = Case { peer, records: vec![rec(&output(1000, &l, None), b"")], ..c.clone() };
        t.eq("header deps", d.judge(), Verdict::Accept(900, 0));
        t.eq("header deps as requested", d.judge_as_requested().to_string().split(' ').next(), Some(number));
    }
    let ours = tx(2, std::slice::from_ref(&o), &[data(b"")], 0, &[]);
    let d =
        Case { ours, peer: tx(4, std::slice::from_ref(&o), &[data(b"")], 0, &[]), records: vec![rec(&output(1, &s, None), b""), None], ..c.clone() };
    t.case("our lock", &d, "6 2");
    let tok = |n: u128| rec(&output(10_000_000_000, &l, Some(&ty)), &n.to_le_bytes());
    let typed = tx(2, &[output(10_000_000_000, &l, Some(&ty))], &[data(&5u128.to_le_bytes())], 0, &[]);
    let d = Case { peer: typed, type_: ty.as_slice().to_vec(), records: vec![tok(u128::MAX), tok(1)], ..c.clone() };
    t.case("tokens", &d, "7");
    let mut e = d.clone();
    e.records = vec![tok(3), tok(4)];
    t.eq("token surplus", e.judge(), Verdict::Accept(10_000_000_000, 2));

    // Figures.
    let request = |u: Option<&Script>, local: u128| FundingRequest {
        script: l.clone(),
        udt_type_script: u.cloned(),
        local_amount: local,
        remote_amount: 11,
        local_reserved_ckb_amount: 7,
        remote_reserved_ckb_amount: 13,
        funding_fee_rate: 1000,
    };
    let view = || Transaction::read(&one).unwrap().into_view();
    let src = script(1, 20);
    let ctx = |u: Option<&Script>| probe::context(l.clone(), u.cloned(), src.clone(), vec![]);
    for (u, ours, cap, amt) in [
        (None, None, 12u64, vec![]),
        (None, Some(view()), 36, vec![]),
        (Some(&ty), None, 7, 5u128.to_le_bytes().to_vec()),
        (Some(&ty), Some(view()), 20, 16u128.to_le_bytes().to_vec()),
    ] {
        let (o, d) = probe::builder(ours, request(u, 5), ctx(u)).build_funding_cell().unwrap();
        let got: u64 = o.capacity().unpack();
        t.eq("figures", (got, d.raw_data().to_vec()), (cap, amt));
    }
    // Pick.
    for at_once in [1, 2, 3] {
        for (want, r) in [(70u128, Ok((2, Some(10u128)))), (80, Ok((2, None))), (121, Err("9")), (u128::MAX, Err("9"))] {
            let cells = [30u128, 50, 40]
                .iter()
                .enumerate()
                .map(|(i, n)| LiveCell {
                    output: output(1, &src, Some(&ty)),
                    output_data: n.to_le_bytes().to_vec().into(),
                    out_point: point(i as u32),
                })
                .collect();
            DESK.with_borrow_mut(|d| d.udt_deps = Some(vec![dep(9)]));
            let mut lent = probe::Lent { cells, at_once, locked: vec![] };
            let b = probe::builder(None, request(Some(&ty), want), ctx(Some(&ty)));
            let got = probe::pick(&b, &mut lent).map(|(i, o, d)| {
                if let Some(o) = o.first() {
                    let c: u64 = o.capacity().unpack();
                    t.eq("change capacity", c, 14_200_000_000u64);
                }
                (i.len(), d.first().map(|d| u128::from_le_bytes(d.raw_data()[..].try_into().unwrap())))
            });
            match (got, r) {
                (Ok(g), Ok(w)) => t.eq("pick", g, w),
                (Err(e), Err(w)) => t.eq("pick", Refusal::from(&e).to_string(), hex(w)),
                (g, w) => t.eq("pick", g.is_ok(), w.is_ok()),
            }
        }
    }
    let place = crate::ckb::funding::funding_tx::secp_sighash_placeholder_witness();
    let mut want = vec![];
    for n in [85u32, 16, 85, 85, 65] {
        want.extend(n.to_le_bytes());
    }
    want.extend([0; 65]);
    t.eq("placeholder", place.as_slice().to_vec(), want);

    // Holds.
    held::probe::reset();
    let none = HashSet::new();
    held::hold_for_watchtower([point(1)], 1000);
    t.eq("busy", held::probe::look(&[point(1)], &none, 1_800_999).len(), 1);
    t.eq("free", held::probe::look(&[point(1)], &none, 1_801_000).len(), 0);
    t.eq("take busy", held::take(vec![point(1)], &none, held::Taker::Funding(7), 1_800_999).0.len(), 0);
    t.eq("take free", held::take(vec![point(1)], &none, held::Taker::Funding(7), 1_801_000).0.len(), 1);
    held::probe::reset();
    let (a, b) = (point(1), point(2));
    t.eq("A A B", held::take(vec![a.clone(), a.clone(), b.clone()], &none, held::Taker::Watchtower, 5), (vec![a.clone(), b], vec![a]));
    held::probe::reset();
    // Exclusions.
    for (tip, kept) in [(99, 1), (112, 1), (113, 0)] {
        let mut m = LiveCellsExclusionMap::new();
        m.add_transaction_view(&view());
        m.commit(&view().hash(), 100);
        m.truncate(tip);
        t.eq("truncate", probe::entries(&m).len(), kept);
    }
    // The original's resolver answers the first extra dep for our source lock, and otherwise what the one below it knows.
    let external = |extra: &[CellDep], lent| probe::resolver(lent, Some((src.clone(), extra)));
    t.eq("resolver", external(&[dep(4), dep(5)], Some(dep(6))).resolve(&src), Some(dep(4)));
    t.eq("resolver, no extra dep", external(&[], Some(dep(6))).resolve(&src), Some(dep(6)));
    t.eq("resolver, other lock", external(&[dep(4)], None).resolve(&l), None::<CellDep>);
    // Panics: the two listed causes are told apart, and another is none of them.
    let typed = |data: &[packed::Bytes]| tx(0, &[output(1, &l, Some(&ty))], data, 0, &[]);
    let without = Case {
        ours: typed(&[]),
        peer: typed(&[data(&[0; 16])]),
        lock: l.as_slice().to_vec(),
        type_: ty.as_slice().to_vec(),
        source: s.as_slice().to_vec(),
        rate: 1000,
        records: vec![],
    };
    t.eq("panic of an update", without.judge(), Verdict::Panic);
    t.eq("no panic with data", Case { ours: typed(&[data(&[0; 16])]), ..without.clone() }.judge(), Verdict::Accept(0, 0));
    let short = Request {
        udt: Some(ty.clone()),
        local: 1,
        cells: vec![(point(0), vec![1; 15])],
        at_once: 1,
        udt_deps: Some(vec![]),
        lock_dep: Some(dep(1)),
        ..Default::default()
    };
    t.eq("panic of a pick", matches!(short.pick(), Answer::Panics), true);
    t.eq("panic of a base", matches!(short.base(), Answer::Panics), true);
    t.eq("no panic", caught(|| 1), Ok::<_, Cause>(1));
    let usual = std::panic::take_hook();
    std::panic::set_hook(Box::new(|_| {}));
    let others: [fn(); 4] = [
        || panic!("should be ok"),
        || panic!("range end index 16 out of range for slice of length 15"),
        || drop(std::hint::black_box(&[0u8; 15][..])[0..16].to_vec()),
        || drop(FundingTx::from(Transaction::default()).into_inner().unwrap().output_with_data(0).unwrap()),
    ];
    for (k, other) in others.into_iter().enumerate() {
        t.eq(&format!("another panic, {k}"), std::panic::catch_unwind(|| caught(other)).is_err(), true);
    }
    std::panic::set_hook(usual);
    // Without the token's deps the pick alone fails, after the cells sufficed.
    let picks =
        |udt_deps, wanted| Request { cells: vec![(point(0), vec![0; 16]), (point(1), vec![1; 16])], udt_deps, local: wanted, ..short.clone() };
    let said = |r: Request| match r.pick() {
        Answer::Done((inputs, _)) => format!("{} inputs", inputs.len()),
        Answer::Refused(r) => r.to_string(),
        Answer::Panics => "panic".into(),
    };
    t.eq("pick without deps", said(picks(None, 1)), hex("11"));
    t.eq("pick without deps, too few tokens", said(picks(None, u128::MAX)), hex("9"));
    t.eq("pick with no deps", said(picks(Some(vec![]), 1)), hex("2 inputs"));
    println!("{} right, {} wrong", t.0, t.1);
    if t.1 > 0 {
        std::process::exit(1)
    }
}
