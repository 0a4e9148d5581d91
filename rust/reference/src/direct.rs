//! The direct answer for one setting, by the file's own switches, with refusals 10, 11 and 12.

use std::collections::VecDeque;

use crate::form::Network;
use crate::formula;
use crate::Refusal;

/// "then 10, 11 (lowest index), 12": the setting's length, its bytes, the answer's room.
pub fn test(network: &Network, setting: &[u8], room: usize) -> Result<(), Refusal> {
    let refused = |number, place| Err(Refusal { number, place });
    if setting.len() != network.coils.len() {
        return refused(10, 0);
    }
    if let Some(index) = setting.iter().position(|&byte| byte > 1) {
        return refused(11, index);
    }
    if room < network.starts.len() {
        return refused(12, 0);
    }
    Ok(())
}

/// 1 for each vertex that a path of true labels reaches from a true start; "a path of no contacts counts".
pub fn answer(network: &Network, setting: &[u8]) -> Vec<u8> {
    let truth = formula::values(setting, &network.given);
    let mut reached: Vec<bool> = network
        .starts
        .iter()
        .map(|&start| truth[usize::from(start)])
        .collect();
    let ways = ways(network, &truth);
    let mut waiting: VecDeque<usize> = (0..reached.len()).filter(|&v| reached[v]).collect();
    while let Some(vertex) = waiting.pop_front() {
        for &next in &ways[vertex] {
            if !reached[next] {
                reached[next] = true;
                waiting.push_back(next);
            }
        }
    }
    reached.into_iter().map(u8::from).collect()
}

/// Where each vertex leads in one step: each direction of a switch by its own label.
fn ways(network: &Network, truth: &[bool]) -> Vec<Vec<usize>> {
    let mut ways = vec![Vec::new(); network.starts.len()];
    for switch in &network.switches {
        if truth[usize::from(switch.first_to_second)] {
            ways[switch.first_end].push(switch.second_end);
        }
        if truth[usize::from(switch.second_to_first)] {
            ways[switch.second_end].push(switch.first_end);
        }
    }
    ways
}
