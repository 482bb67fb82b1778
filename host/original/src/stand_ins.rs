//! The modules that the original names and that are not compared, as far as it needs them to compile.
//! `mesh` keeps what `triangulate_grid` hands to its builder: that is compared.
#![allow(dead_code)]

pub(crate) mod common {
    pub(crate) const EPS: f64 = 1e-9;
}

pub(crate) mod bounding_box {
    use super::super::vector::Vector;

    #[derive(Debug, Clone, Copy, Default)]
    pub struct BBox;

    impl BBox {
        pub fn new(_min: Vector, _max: Vector) -> Self {
            Self
        }

        pub fn extend(self, _other: Self) -> Self {
            self
        }
    }
}

pub(crate) mod filter {
    use super::super::vector::Vector;

    pub trait Filter {
        fn filter(&self, v: Vector) -> Option<Vector>;
    }
}

pub(crate) mod hit {
    #[derive(Debug, Clone, Copy)]
    pub struct Hit;
}

pub(crate) mod ray {
    #[derive(Debug, Clone, Copy)]
    pub struct Ray;
}

pub(crate) mod matrix {
    use super::super::vector::Vector;

    /// The identity.
    #[derive(Debug, Clone, Copy)]
    pub struct Matrix;

    impl Matrix {
        pub fn mul_position(&self, v: Vector) -> Vector {
            v
        }

        pub fn mul_position_w(&self, v: Vector) -> Vector {
            v
        }
    }
}

pub(crate) mod shape {
    use super::super::path::Paths;
    use super::super::vector::Vector;
    use super::bounding_box::BBox;
    use super::hit::Hit;
    use super::matrix::Matrix;
    use super::ray::Ray;

    pub trait Shape {
        fn bounding_box(&self) -> BBox;
        fn contains(&self, v: Vector, f: f64) -> bool;
        fn intersect(&self, r: Ray) -> Hit;
        fn paths(&self, args: &RenderArgs) -> Paths<Vector>;
    }

    pub struct RenderArgs {
        pub screen_mat: Matrix,
        pub width: f64,
        pub height: f64,
        pub step: f64,
    }
}

pub(crate) mod mesh {
    use super::super::vector::Vector;
    use super::bounding_box::BBox;
    use super::hit::Hit;
    use super::ray::Ray;
    use std::collections::HashSet;

    #[derive(Debug, Clone)]
    pub struct Mesh {
        pub vertices: Vec<Vector>,
        pub triangles: Vec<usize>,
        pub flipped_triangles: HashSet<(usize, usize)>,
    }

    impl Mesh {
        pub fn builder(vertices: Vec<Vector>, triangles: Vec<usize>) -> MeshBuilder {
            MeshBuilder(Self {
                vertices,
                triangles,
                flipped_triangles: HashSet::new(),
            })
        }

        pub fn bounding_box(&self) -> BBox {
            BBox
        }

        pub fn contains(&self, _v: Vector, _f: f64) -> bool {
            false
        }

        pub fn intersect(&self, _r: Ray) -> Hit {
            Hit
        }
    }

    pub struct MeshBuilder(Mesh);

    impl MeshBuilder {
        pub fn flipped_triangles(self, flipped_triangles: HashSet<(usize, usize)>) -> Self {
            Self(Mesh {
                flipped_triangles,
                ..self.0
            })
        }

        pub fn build(self) -> Mesh {
            self.0
        }
    }
}
