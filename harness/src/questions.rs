//! The questions on which the walk is measured. Those that no walk ends are measured to their budget.

/// One run, the empty one.
pub const ONE_RUN: &str = "threads=1\nlocs=1\nbudget=1\nwant=all\nthread=0\n";

/// The three questions of the base, by letter.
pub const BASE: [(&str, &str); 3] = [
    ("a", "threads=2\nlocs=2\nbudget=2000000\nwant=all\nthread=0\nop=st,0,1\nop=st,0,2\nop=st,0,3\nthread=1\nop=st,1,1\nop=st,1,2\nop=st,1,3\n"),
    (
        "b",
        "threads=2\nlocs=3\nbudget=1000000\nwant=all\nthread=0\nop=st,0,42\nop=st,1,7\nthread=1\nop=ld,0,1\nop=bz,0,4\nop=fo,0\nop=fo,1\nop=sf\nop=st,2,1\n",
    ),
    (
        "c",
        "threads=1\nlocs=1\nbudget=2000000\nwant=all\nthread=0\nop=st,0,1\nop=st,0,2\nop=st,0,3\nop=st,0,4\nop=st,0,5\nop=st,0,6\nop=st,0,7\nop=st,0,8\n",
    ),
];

/// Two threads with many fo, which leave the middle of a buffer.
pub fn many_fo() -> String {
    let thread = |t: u8| format!("thread={t}\nop=st,0,1\nop=fo,0\nop=fo,1\nop=fo,2\nop=fo,3\nop=sf\n");
    format!("threads=2\nlocs=4\nbudget=2000000\nwant=all\n{}{}", thread(0), thread(1))
}

/// Four threads of eight instructions, each of three steps: the first 97 runs are the beginnings of one of 96 codes, and no run is longer.
pub fn deepest(op: &str) -> String {
    let thread = |t: u8| format!("thread={t}\n{}", format!("op={op}\n").repeat(8));
    format!("threads=4\nlocs=1\nbudget=1000\nwant=all\n{}", (0..4).map(thread).collect::<String>())
}
