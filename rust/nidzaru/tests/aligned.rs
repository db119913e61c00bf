//! Records that are aligned to 16, 32 and 64: what is read is what was written, whether the record is passed where it lies or through a
//! copy.

macro_rules! aligned {
    ($($name:ident: $alignment:literal, $count:literal;)*) => {$(
        #[test]
        fn $name() {
            #[repr(align($alignment))]
            #[derive(Clone, Copy, Debug, PartialEq)]
            struct Wide([f64; $count]);
            let counted = |from: f64| {
                let mut wide = Wide([from; $count]);
                for (i, at) in wide.0.iter_mut().enumerate() {
                    *at += i as f64;
                }
                wide
            };
            assert_eq!(align_of::<Wide>(), $alignment);
            let (mut writer, mut reader) = nidzaru::register(counted(0.5)).unwrap();
            let (mut triple_writer, mut triple_reader) = nidzaru::triple_register(counted(0.5)).unwrap();
            let mut places = nidzaru::board(2, counted(0.5)).unwrap();
            for from in [1.0, 2.0, 3.0] {
                writer.write(&counted(from)).unwrap();
                assert_eq!(reader.latest(), counted(from));
                triple_writer.write(&counted(from)).unwrap();
                assert_eq!(triple_reader.latest(), counted(from));
                places[0].write(&counted(from)).unwrap();
                assert_eq!(places[1].read(), counted(from));
            }
        }
    )*};
}

aligned! {
    by_16_through_a_copy: 16, 2;
    by_32_through_a_copy: 32, 4;
    by_16_in_place: 16, 8;
    by_64_in_place: 64, 8;
    by_32_of_128_bytes: 32, 16;
    by_64_of_256_bytes: 64, 32;
    by_64_of_4096_bytes: 64, 512;
}
