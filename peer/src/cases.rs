//! Cases A to L of document 01, with what S-5 shows in case D, two of sixteen events
//! that can all stand in an order, and one of S-6. The reports are worked out by hand from
//! the documents' words. Where a case names no steps, event n is in step n (in those of
//! sixteen events, n modulo 8).

pub struct Case {
    /// Also the folder below `examples`.
    pub name: &'static str,
    pub sheet: &'static [u8],
    pub calls: &'static [u8],
    pub report: &'static str,
}

/// The sheet of the case of that name.
pub fn sheet_of(case: &str) -> &'static [u8] {
    let found = CASES.iter().find(|one| one.name == case);
    found.expect("a case of that name").sheet
}

pub const CASES: &[Case] = &[
    Case {
        name: "A",
        sheet: &[1, 0, 6, 1, 1, 6, 2, 0, 1, 3, 0, 1, 5],
        calls: &[16, 0, 16, 1],
        report: "events 2 rules 2\n0 done\n1 done\nheld 0\nbroken 0\nrefused calls 0\n",
    },
    Case {
        name: "B",
        sheet: &[1, 0, 6, 1, 1, 6, 2, 0, 1, 3, 0, 1, 5],
        calls: &[16, 0, 17, 1],
        report: "events 2 rules 2\n1 lapsed\n0 refused\nheld 0\nbroken 0\nrefused calls 0\n",
    },
    Case {
        name: "C",
        sheet: &[1, 0, 6, 1, 1, 6, 2, 0, 1, 5],
        calls: &[16, 1, 17, 0],
        report: "events 2 rules 1\n0 lapsed\n1 done\nheld 0\nbroken 0\nrefused calls 0\n",
    },
    Case {
        name: "D",
        sheet: &[1, 0, 1, 1, 1, 1, 3, 0, 1, 5],
        calls: &[16, 0],
        report: "events 2 rules 1\n0 done\n1 forced\nheld 0\nbroken 0\nrefused calls 0\n",
    },
    Case {
        name: "E",
        sheet: &[1, 0, 1, 1, 1, 1, 3, 0, 1, 5],
        calls: &[17, 1, 16, 0],
        report: "events 2 rules 1\n1 lapsed\n0 done\nheld 0\nbroken 1\nrefused calls 0\n",
    },
    Case {
        name: "F",
        sheet: &[1, 0, 1, 1, 1, 6, 3, 0, 1, 5],
        calls: &[],
        report: "refused 7 at 6\n",
    },
    Case {
        name: "G",
        sheet: &[1, 0, 6, 1, 1, 0, 2, 0, 1, 5],
        calls: &[16, 1, 16, 0],
        report: "events 2 rules 1\n1 done\n0 refused\nheld 0\nbroken 0\nrefused calls 0\n",
    },
    Case {
        name: "H",
        sheet: &[1, 0, 6, 1, 1, 6, 2, 0, 1, 2, 1, 0, 5],
        calls: &[16, 0, 16, 1, 17, 0, 17, 1, 18],
        report: "events 2 rules 2\n0 refused\n1 done\nheld 0\nbroken 0\nrefused calls 0\n",
    },
    Case {
        name: "I/1",
        sheet: &[],
        calls: &[],
        report: "refused 1 at 0\n",
    },
    Case {
        name: "I/2",
        sheet: &[5],
        calls: &[],
        report: "events 0 rules 0\nheld 0\nbroken 0\nrefused calls 0\n",
    },
    Case {
        name: "I/3",
        sheet: &[5, 5],
        calls: &[],
        report: "refused 8 at 1\n",
    },
    Case {
        name: "I/4",
        sheet: &[1, 0, 4, 5],
        calls: &[],
        report: "refused 5 at 0\n",
    },
    Case {
        name: "J/six",
        sheet: &[
            1, 0, 6, 1, 1, 6, 1, 2, 6, 1, 3, 6, 1, 4, 6, 1, 5, 6, // events
            3, 0, 1, 3, 1, 2, 3, 2, 3, 3, 3, 4, 3, 4, 5, 3, 5, 0, // ring
            5,
        ],
        calls: &[16, 0, 16, 1, 16, 2, 16, 3, 16, 4, 16, 5],
        report: "events 6 rules 6\n0 done\n1 done\n2 done\n3 done\n4 done\n5 done\n\
                 held 0\nbroken 0\nrefused calls 0\n",
    },
    Case {
        name: "J/seven",
        sheet: &[
            1, 0, 6, 1, 1, 6, 1, 2, 6, 1, 3, 6, 1, 4, 6, 1, 5, 6, 1, 6, 6, // events
            3, 0, 1, 3, 1, 2, 3, 2, 3, 3, 3, 4, 3, 4, 5, 3, 5, 6, 3, 6, 0, // ring
            5,
        ],
        calls: &[16, 0, 16, 1, 16, 2, 16, 3, 16, 4, 16, 5, 16, 6],
        report: "events 7 rules 7\nheld 7\nbroken 0\nrefused calls 0\n",
    },
    Case {
        name: "K",
        sheet: &[
            1, 0, 6, 1, 1, 6, 1, 2, 6, 1, 3, 6, 1, 4, 6, 1, 5, 6, 1, 6, 6, // events
            3, 0, 1, 3, 1, 2, 3, 2, 3, 3, 3, 4, 3, 4, 5, 3, 5, 6, // chain
            5,
        ],
        calls: &[16, 0, 16, 1, 16, 2, 16, 3, 16, 4, 16, 5, 16, 6],
        report: "events 7 rules 6\n1 done\n2 done\n3 done\n4 done\n5 done\n6 done\n0 done\n\
                 held 0\nbroken 0\nrefused calls 0\n",
    },
    Case {
        name: "L",
        sheet: &[1, 0, 6, 1, 1, 6, 1, 2, 6, 4, 0, 1, 2, 5],
        calls: &[16, 0, 16, 1, 17, 2],
        report: "events 3 rules 1\n0 done\n2 lapsed\n1 refused\n\
                 held 0\nbroken 0\nrefused calls 0\n",
    },
    // Fifteen events that each need the sixteenth.
    Case {
        name: "needs-one",
        sheet: &[
            // events
            1, 0, 6, 1, 1, 6, 1, 2, 6, 1, 3, 6, 1, 4, 6, 1, 5, 6, 1, 6, 6, 1, 7, 6, // 0 to 7
            1, 0, 6, 1, 1, 6, 1, 2, 6, 1, 3, 6, 1, 4, 6, 1, 5, 6, 1, 6, 6, 1, 7, 6, // 8 to 15
            // needs
            3, 0, 15, 3, 1, 15, 3, 2, 15, 3, 3, 15, 3, 4, 15, 3, 5, 15, 3, 6, 15, 3, 7, 15, 3, 8,
            15, 3, 9, 15, 3, 10, 15, 3, 11, 15, 3, 12, 15, 3, 13, 15, 3, 14, 15, 5,
        ],
        calls: &[
            // hand-ins
            16, 0, 16, 1, 16, 2, 16, 3, 16, 4, 16, 5, 16, 6, 16, 7, 16, 8, 16, 9, 16, 10, 16, 11,
            16, 12, 16, 13, 16, 14, 16, 15, //
            // closings, winding up
            17, 0, 17, 1, 17, 2, 17, 3, 17, 4, 17, 5, 17, 6, 17, 7, 18,
        ],
        report: "events 16 rules 15\n0 done\n15 done\n1 done\n2 done\n3 done\n\
                 4 done\n5 done\n6 done\n7 done\n8 done\n9 done\n10 done\n11 done\n\
                 12 done\n13 done\n14 done\nheld 0\nbroken 0\nrefused calls 0\n",
    },
    // A ring of sixteen needs.
    Case {
        name: "ring",
        sheet: &[
            // events
            1, 0, 6, 1, 1, 6, 1, 2, 6, 1, 3, 6, 1, 4, 6, 1, 5, 6, 1, 6, 6, 1, 7, 6, // 0 to 7
            1, 0, 6, 1, 1, 6, 1, 2, 6, 1, 3, 6, 1, 4, 6, 1, 5, 6, 1, 6, 6, 1, 7, 6, // 8 to 15
            // needs
            3, 0, 1, 3, 1, 2, 3, 2, 3, 3, 3, 4, 3, 4, 5, 3, 5, 6, 3, 6, 7, 3, 7, 8, 3, 8, 9, 3, 9,
            10, 3, 10, 11, 3, 11, 12, 3, 12, 13, 3, 13, 14, 3, 14, 15, 3, 15, 0, 5,
        ],
        calls: &[
            // hand-ins
            16, 0, 16, 1, 16, 2, 16, 3, 16, 4, 16, 5, 16, 6, 16, 7, 16, 8, 16, 9, 16, 10, 16, 11,
            16, 12, 16, 13, 16, 14, 16, 15, //
            // closings, winding up
            17, 0, 17, 1, 17, 2, 17, 3, 17, 4, 17, 5, 17, 6, 17, 7, 18,
        ],
        report: "events 16 rules 16\n0 refused\n15 refused\n14 refused\n\
                 13 refused\n12 refused\n11 refused\n10 refused\n9 refused\n\
                 8 refused\n7 refused\n6 refused\n5 refused\n4 refused\n3 refused\n\
                 2 refused\n1 refused\nheld 0\nbroken 0\nrefused calls 0\n",
    },
    // Embalming, transport and consent: 0 waits for 2, as nothing can stop 1.
    Case {
        name: "consent",
        sheet: &[1, 0, 6, 1, 1, 0, 1, 2, 6, 4, 0, 1, 2, 5],
        calls: &[16, 0, 17, 2, 16, 1],
        report: "events 3 rules 1\n2 lapsed\n0 refused\n1 done\n\
                 held 0\nbroken 0\nrefused calls 0\n",
    },
];
