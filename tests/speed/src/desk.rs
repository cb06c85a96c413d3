//! Buffers for one set, made once.
use second::plan::Plan;
use second::random::Random;

/// What the calls of one set are made with: a pair, one sealing and its opening.
pub struct Desk {
    pub n: usize,
    pub plan: Plan,
    pub a: Vec<u16>,
    pub b: Vec<u16>,
    pub seed: Vec<u8>,
    pub public: Vec<u8>,
    pub private: Vec<u8>,
    pub message: Vec<u8>,
    pub h_block: Vec<u8>,
    pub g_block: Vec<u8>,
    pub cipher: Vec<u8>,
    pub marks: Vec<u8>,
    pub image: Vec<u8>,
}

impl Desk {
    pub fn new(n: usize) -> Desk {
        let mut random = Random::new(n as u64);
        let mut desk = Desk {
            n,
            plan: Plan::new(None),
            a: (0..n).map(|_| random.residue()).collect(),
            b: (0..n).map(|_| random.residue()).collect(),
            seed: vec![0; n / 2],
            public: vec![0; 3 * n / 2],
            private: vec![0; 3 * n],
            message: random.bytes(n / 8),
            h_block: random.bytes(32 + n / 4),
            g_block: random.bytes(n / 4),
            cipher: vec![0; 3 * n / 2],
            marks: vec![0; n],
            image: vec![0; 3 * n / 2],
        };
        while wrapper::make(n, &desk.seed, &mut desk.public, &mut desk.private).number != 0 {
            desk.seed = random.bytes(n / 2);
        }
        let mut key = [0; 32];
        let sealed = wrapper::seal(
            n,
            &desk.public,
            &desk.message,
            &desk.h_block,
            &desk.g_block,
            &mut desk.cipher,
            &mut key,
        );
        let opened = wrapper::open_1(n, &desk.private, &desk.cipher, &mut desk.marks, &mut desk.image);
        assert_eq!((sealed.number, opened.number), (0, 0));
        desk
    }
}
