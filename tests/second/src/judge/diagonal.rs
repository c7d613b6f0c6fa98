//! The diagonal form of a matrix of whole numbers: Smith's form, without the
//! rule that each entry divides the next.

pub type Matrix = Vec<Vec<i128>>;

/// left · matrix · right has the entries on its diagonal and 0 elsewhere;
/// left and right have inverses in whole numbers.
pub struct Diagonal {
    left: Matrix,
    right: Matrix,
    entries: Vec<i128>,
}

impl Diagonal {
    pub fn of(matrix: &Matrix, width: usize) -> Diagonal {
        let mut work = matrix.clone();
        let mut left = identity(matrix.len());
        let mut right = identity(width);
        let mut entries = Vec::new();
        while let Some((row, column)) = smallest(&work, entries.len()) {
            let corner = entries.len();
            work.swap(row, corner);
            left.swap(row, corner);
            swap_columns(&mut work, column, corner);
            swap_columns(&mut right, column, corner);
            let pivot = work[corner][corner];
            for other in corner + 1..work.len() {
                let times = work[other][corner] / pivot;
                take_row(&mut work, other, corner, times);
                take_row(&mut left, other, corner, times);
            }
            for other in corner + 1..width {
                let times = work[corner][other] / pivot;
                take_column(&mut work, other, corner, times);
                take_column(&mut right, other, corner, times);
            }
            if alone(&work, corner) {
                entries.push(pivot);
            }
        }
        Diagonal {
            left,
            right,
            entries,
        }
    }

    pub fn rank(&self) -> usize {
        self.entries.len()
    }

    /// Whether matrix · x = target has a solution x in whole numbers.
    pub fn solvable(&self, target: &[i128]) -> bool {
        let moved = self.left.iter().map(|row| {
            let products = row.iter().zip(target);
            products.fold(0, |sum, (x, y)| plus_product(sum, *x, *y))
        });
        moved.enumerate().all(|(i, x)| match self.entries.get(i) {
            Some(entry) => x % entry == 0,
            None => x == 0,
        })
    }

    /// A basis of all x in whole numbers with matrix · x = 0.
    pub fn kernel(&self) -> Matrix {
        let columns = self.rank()..self.right.len();
        columns
            .map(|column| self.right.iter().map(|row| row[column]).collect())
            .collect()
    }
}

fn identity(size: usize) -> Matrix {
    let row = |i: usize| (0..size).map(|j| i128::from(i == j)).collect();
    (0..size).map(row).collect()
}

/// The place of the smallest entry that is not 0, from the corner on.
fn smallest(work: &Matrix, corner: usize) -> Option<(usize, usize)> {
    let width = work.first().map_or(0, Vec::len);
    let places = (corner..work.len()).flat_map(|row| (corner..width).map(move |c| (row, c)));
    places
        .filter(|&(row, column)| work[row][column] != 0)
        .min_by_key(|&(row, column)| work[row][column].abs())
}

fn alone(work: &Matrix, corner: usize) -> bool {
    let right_of_it = work[corner][corner + 1..].iter();
    let below_it = work[corner + 1..].iter().map(|row| &row[corner]);
    right_of_it.chain(below_it).all(|&x| x == 0)
}

fn swap_columns(matrix: &mut Matrix, one: usize, other: usize) {
    for row in matrix {
        row.swap(one, other);
    }
}

fn take_row(matrix: &mut Matrix, from: usize, row: usize, times: i128) {
    let taken = matrix[row].clone();
    for (x, y) in matrix[from].iter_mut().zip(taken) {
        *x = plus_product(*x, -times, y);
    }
}

fn take_column(matrix: &mut Matrix, from: usize, column: usize, times: i128) {
    for row in matrix {
        row[from] = plus_product(row[from], -times, row[column]);
    }
}

pub fn plus_product(sum: i128, x: i128, y: i128) -> i128 {
    let product = x.checked_mul(y);
    let result = product.and_then(|product| sum.checked_add(product));
    result.expect("the judge's numbers fit in 128 bits")
}
