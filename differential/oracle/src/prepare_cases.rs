//! The stored cases of preparing: maps, and the areas in which each is prepared.

use crate::drawing;
use crate::map_bytes;
use crate::prepare_report;
use crate::preparing::{sections, words};
use crate::random::Random;
use crate::step_map::{Link, Node, StepMap};
use std::fs;
use std::io;
use std::path::Path;

/// The files of the program `prepare_run`: the list of cases, what is to be written of them, and the maps by file name.
#[derive(Default)]
pub struct Cases {
    list: Vec<String>,
    expected: Vec<String>,
    maps: Vec<(String, Vec<u8>)>,
}

/// The areas in which a map is prepared.
enum Areas {
    /// One of W + 3 words.
    Above,
    /// One of W - 1 words, one of W, one of W + 3.
    Around,
}

impl Cases {
    /// All cases: maps of 01, other maps that are accepted, and one of each kind that is refused.
    pub fn all() -> Self {
        let mut cases = Self::default();
        cases.add_paper();
        cases.add_small();
        cases.add_large();
        cases.add_malformed();
        cases.add_too_large();
        cases.add_bad_links();
        cases.add_cycles();
        cases
    }

    /// Writes the files below the program's folder.
    pub fn write(&self, folder: &Path) -> io::Result<()> {
        let data = folder.join("data");
        fs::create_dir_all(&data)?;
        fs::write(folder.join("stdin"), text(&self.list))?;
        fs::write(folder.join("stdout"), text(&self.expected))?;
        for (file, bytes) in &self.maps {
            fs::write(data.join(file), bytes)?;
        }
        Ok(())
    }

    /// A map, and its cases: how many words the area has, and the word that stands in each of them beforehand.
    fn add(&mut self, name: &str, bytes: Vec<u8>, areas: &[(usize, u16)]) {
        let file = format!("{name}.pgt");
        for &(area_words, before) in areas {
            let case = format!("{file} {area_words} {before}");
            self.expected.extend(prepare_report::lines(&case, &bytes, area_words, before));
            self.list.push(case);
        }
        self.maps.push((file, bytes));
    }

    /// A map that passes 1 and 2, in areas that are told by W.
    fn add_sized(&mut self, name: &str, nodes: &[Node], links: &[Link], areas: Areas) {
        let bytes = map_bytes::write(nodes, links);
        let map = map_bytes::read(&bytes).unwrap_or_else(|refusal| panic!("{name}: {refusal:?}"));
        let w = words(&sections(&map));
        match areas {
            Areas::Above => self.add(name, bytes, &[(w + 3, 65535)]),
            Areas::Around => self.add(name, bytes, &[(w - 1, 7), (w, 65535), (w + 3, 7)]),
        }
    }

    fn add_map(&mut self, name: &str, nodes: &[(usize, usize)], links: &[[usize; 4]]) {
        self.add_sized(name, &node_list(nodes), &link_list(links), Areas::Above);
    }

    fn add_drawn(&mut self, name: &str, map: &StepMap, areas: Areas) {
        self.add_sized(name, map.nodes(), map.links(), areas);
    }

    /// 01's own maps: A, B, C, the ring, and N = 0.
    fn add_paper(&mut self) {
        self.add_sized("map_a", &node_list(&MAP_A.0), &link_list(&MAP_A.1), Areas::Around);
        let links = [[0, 0, 1, 0], [1, 0, 2, 0], [1, 1, 3, 0], [4, 0, 5, 0], [5, 0, 6, 0]];
        self.add_map("map_b", &[(0, 1), (1, 2), (1, 0), (1, 0), (0, 1), (1, 1), (1, 0)], &links);
        self.add_map("map_c", &[(0, 1), (1, 0), (1, 0)], &[[0, 0, 1, 0], [0, 0, 2, 0]]);
        self.add_map("ring", &[(1, 1), (1, 1)], &[[0, 0, 1, 0], [1, 0, 0, 0]]);
        self.add_sized("no_nodes", &[], &[], Areas::Around);
    }

    fn add_small(&mut self) {
        self.add_map("isolated", &[(0, 0), (2, 0), (0, 3), (1, 1)], &[]);
        // three lines on two nodes; the links are not listed by port
        self.add_map("several_links", &[(0, 3), (3, 0)], &[[0, 2, 1, 0], [0, 0, 1, 2], [0, 1, 1, 1]]);
        let links = [[0, 0, 3, 0], [0, 0, 1, 0], [0, 1, 2, 1], [0, 0, 2, 0], [1, 0, 3, 1], [2, 0, 4, 0], [2, 0, 3, 2]];
        self.add_map("fan_out", &[(0, 2), (1, 1), (2, 1), (3, 0), (1, 0)], &links);
        let links = [[2, 3, 0, 2], [0, 1, 1, 1], [2, 1, 1, 3]];
        self.add_map("unlinked_between", &[(4, 3), (5, 2), (1, 5)], &links);
        // the last node meets positions 0 and 2
        let links = [[0, 0, 3, 0], [0, 1, 1, 0], [1, 0, 2, 0], [2, 0, 3, 1]];
        self.add_map("short_and_long_way", &[(0, 2), (1, 1), (1, 1), (2, 0)], &links);
        let mut random = Random::new(1);
        for number in 1..=12 {
            self.add_drawn(&format!("drawn_{number}"), &drawing::map(&mut random, 9), Areas::Above);
        }
    }

    fn add_large(&mut self) {
        let mut links = Vec::new();
        for k in 0..255 {
            links.push([1, k, 2, 254 - k]);
            links.push([0, k, 1, 7 * k % 255]);
        }
        self.add_map("ports_255", &[(0, 255), (255, 255), (255, 0)], &links);
        self.add_map("links_2048_on_a_port", &port_with_links(2048).0, &port_with_links(2048).1);
        let chain: Vec<[usize; 4]> = (1..512).rev().map(|node| [node, 0, node - 1, 0]).collect();
        self.add_map("chain_512", &[(1, 1); 512], &chain);
        self.add_map("isolated_512", &[(0, 0); 512], &[]);
        self.add_drawn("largest", &drawing::largest(&mut Random::new(1)), Areas::Around);
    }

    /// Refusal 1.
    fn add_malformed(&mut self) {
        let good = map_bytes::write(&node_list(&MAP_A.0), &link_list(&MAP_A.1));
        let with = |from_end: usize, byte: u8| {
            let mut bytes = good.clone();
            let at = bytes.len() - from_end;
            bytes[at] = byte;
            bytes
        };
        let in_front = [&[0], &good[..]].concat();
        let area = [(200, 65535)];
        self.add("no_bytes", Vec::new(), &area);
        self.add("mark_alone", b"PGT1".to_vec(), &area);
        self.add("wrong_mark", with(1, b'2'), &area);
        self.add("first_distance_off", with(12, 47), &area);
        self.add("node_count_off", with(10, 5), &area);
        self.add("second_distance_off", with(8, 31), &area);
        self.add("link_count_off", with(6, 5), &area);
        self.add("a_byte_more", in_front, &area);
        self.add("a_byte_less", good[1..].to_vec(), &area);
    }

    /// Refusal 2: each limit passed by one, in an area without a word and in one with some.
    fn add_too_large(&mut self) {
        let areas = [(0, 0), (9, 65535)];
        let mut add = |name: &str, nodes: &[(usize, usize)], links: &[[usize; 4]]| {
            self.add(name, map_bytes::write(&node_list(nodes), &link_list(links)), &areas);
        };
        add("nodes_513", &[(0, 0); 513], &[]);
        add("links_2049", &port_with_links(2049).0, &port_with_links(2049).1);
        add("ports_4097", &[[(255, 255); 8].as_slice(), &[(17, 0)]].concat(), &[]);
        add("inputs_256", &[(256, 0)], &[]);
        add("outputs_256", &[(0, 256)], &[]);
    }

    /// Refusals 4 and 5, and which of two bad links decides.
    fn add_bad_links(&mut self) {
        let nodes = [(0, 2), (2, 1)];
        let good = [0, 0, 1, 0];
        self.add_map("missing_from_node", &nodes, &[good, [2, 0, 1, 1]]);
        self.add_map("missing_output", &nodes, &[good, [0, 2, 1, 1]]);
        self.add_map("missing_to_node", &nodes, &[good, [0, 1, 2, 0]]);
        self.add_map("missing_input", &nodes, &[good, [0, 1, 1, 2]]);
        self.add_map("second_on_an_input", &nodes, &[good, [0, 1, 1, 1], [0, 1, 1, 0]]);
        self.add_map("second_before_missing", &nodes, &[good, [0, 1, 1, 0], [0, 0, 9, 0]]);
        self.add_map("missing_before_second", &nodes, &[good, [0, 65535, 1, 1], [0, 1, 1, 0]]);
        self.add_map("second_and_cycle", &nodes, &[good, [1, 0, 1, 1], [0, 1, 1, 1]]);
    }

    /// Refusal 6: the lowest node never ordered is on the cycle, behind it, or not the lowest of all.
    fn add_cycles(&mut self) {
        self.add_map("linked_to_itself", &[(0, 1), (2, 1)], &[[0, 0, 1, 0], [1, 0, 1, 1]]);
        let ring = [[1, 0, 2, 0], [2, 0, 1, 0]];
        self.add_map("ring_behind_a_node", &[(0, 1), (2, 1), (1, 1)], &[[0, 0, 1, 1], ring[0], ring[1]]);
        self.add_map("node_behind_a_ring", &[(1, 0), (1, 1), (1, 2)], &[[2, 1, 0, 0], ring[0], ring[1]]);
    }
}

const MAP_A: ([(usize, usize); 4], [[usize; 4]; 4]) =
    ([(0, 2), (1, 1), (1, 1), (2, 0)], [[0, 0, 1, 0], [0, 1, 2, 0], [1, 0, 3, 0], [2, 0, 3, 1]]);

/// A node whose one output has so many links, to nodes with 255 inputs.
fn port_with_links(count: usize) -> (Vec<(usize, usize)>, Vec<[usize; 4]>) {
    let mut nodes = vec![(0, 1)];
    nodes.resize(1 + count.div_ceil(255), (255, 0));
    (nodes, (0..count).map(|k| [0, 0, 1 + k / 255, k % 255]).collect())
}

fn node_list(nodes: &[(usize, usize)]) -> Vec<Node> {
    nodes.iter().map(|&(inputs, outputs)| Node { inputs, outputs }).collect()
}

fn link_list(links: &[[usize; 4]]) -> Vec<Link> {
    links.iter().map(|&[from, output, to, input]| Link { from, output, to, input }).collect()
}

/// Every line with its newline.
fn text(lines: &[String]) -> String {
    lines.iter().flat_map(|line| [line.as_str(), "\n"]).collect()
}
