//! Every example of `examples/` runs to its end.

#![cfg(feature = "std")]

macro_rules! runs {
    ($($name:ident = $path:literal;)*) => {
        $(
            #[path = $path]
            mod $name;
        )*

        #[test]
        fn every_example_runs() {
            $($name::main().expect($path);)*
        }
    };
}

runs! {
    depths = "../examples/depths.rs";
    edit = "../examples/edit.rs";
    flatten = "../examples/flatten.rs";
}
