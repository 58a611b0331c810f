//! A plain scan for the least embedding, to measure against: for each atom of the query in turn, every atom of the molecule is
//! tried, and the bonds to the atoms before it are tested. Usage: plain_scan SDF QUERY, each of one molecule.
use std::{env, fs};

struct Molecule {
    atoms: Vec<String>,
    bonds: Vec<(usize, usize)>,
}

fn number(line: &str, first: usize) -> usize {
    line[first..first + 3].trim().parse().unwrap()
}

fn read(path: &str) -> Molecule {
    let text = fs::read_to_string(path).unwrap();
    let lines: Vec<&str> = text.lines().collect();
    let (atoms, bonds) = (number(lines[3], 0), number(lines[3], 3));
    Molecule {
        atoms: (0..atoms).map(|i| lines[4 + i][31..34].trim().to_string()).collect(),
        bonds: (0..bonds)
            .map(|i| lines[4 + atoms + i])
            .map(|line| (number(line, 0) - 1, number(line, 3) - 1))
            .collect(),
    }
}

struct Scan {
    same: Vec<Vec<bool>>,
    earlier: Vec<Vec<usize>>,
    bonded: Vec<Vec<bool>>,
}

impl Scan {
    fn extend(&self, map: &mut Vec<usize>) -> bool {
        let asked = map.len();
        if asked == self.earlier.len() {
            return true;
        }
        for place in 0..self.bonded.len() {
            let fits = self.same[asked][place]
                && !map.contains(&place)
                && self.earlier[asked].iter().all(|&before| self.bonded[map[before]][place]);
            if fits {
                map.push(place);
                if self.extend(map) {
                    return true;
                }
                map.pop();
            }
        }
        false
    }
}

fn main() {
    let files: Vec<String> = env::args().skip(1).collect();
    let (mol, query) = (read(&files[0]), read(&files[1]));
    let mut bonded = vec![vec![false; mol.atoms.len()]; mol.atoms.len()];
    for &(first, second) in &mol.bonds {
        bonded[first][second] = true;
        bonded[second][first] = true;
    }
    let mut earlier = vec![Vec::new(); query.atoms.len()];
    for &(first, second) in &query.bonds {
        earlier[first.max(second)].push(first.min(second));
    }
    let same = query
        .atoms
        .iter()
        .map(|asked| mol.atoms.iter().map(|atom| atom == asked).collect())
        .collect();
    let mut map = Vec::new();
    let found = Scan { same, earlier, bonded }.extend(&mut map);
    println!("{}", if found { "hits 1" } else { "hits 0" });
}
