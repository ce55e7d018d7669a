//! The constraints of a FET file as they stand, with their weights.

use super::super::draft::Weight;
use super::super::remark::Fault;
use super::super::xml::Element;
use crate::instance::LARGEST_WEIGHT;

/// An active constraint of the file.
pub struct Item<'a> {
    pub element: &'a Element,
    /// Its weight percentage, above 0.
    percentage: f64,
}

impl<'a> Item<'a> {
    /// The items of a list that are active and weigh something.
    pub fn all(list: Option<&'a Element>) -> Result<Vec<Item<'a>>, Fault> {
        let mut items = Vec::new();
        for element in list.iter().flat_map(|list| &list.children) {
            if element.field("Active") == "false" {
                continue;
            }
            let percentage = percentage(element)?;
            if percentage > 0.0 {
                items.push(Item {
                    element,
                    percentage,
                });
            }
        }
        Ok(items)
    }

    pub fn hard(&self) -> bool {
        self.percentage >= 100.0
    }

    /// A percentage of 100 is hard; one below is a soft weight, so many of `scale` parts,
    /// rounded and at least 1.
    pub fn weight(&self, scale: u32) -> Weight {
        match self.hard() {
            true => Weight::Hard,
            false => {
                let parts = (self.percentage * f64::from(scale) / 100.0).round();
                Weight::Soft((parts as u32).clamp(1, LARGEST_WEIGHT))
            }
        }
    }

    /// The item in a few words.
    pub fn words(&self) -> String {
        let name = &self.element.name;
        let telling = [
            "Teacher",
            "Student",
            "Subject",
            "Tag",
            "Room",
            "Activity_Id",
        ];
        let fields = self.element.children.iter().filter(|child| {
            let known = telling.iter().any(|part| child.name.contains(part));
            known && !child.name.starts_with("Number") && !child.text.trim().is_empty()
        });
        let texts: Vec<&str> = fields.map(|child| child.text.trim()).collect();
        match texts.len() {
            0 => name.clone(),
            1..=4 => format!("{name} ({})", texts.join(", ")),
            count => format!("{name} ({}, ... {count} in all)", texts[..3].join(", ")),
        }
    }
}

fn percentage(element: &Element) -> Result<f64, Fault> {
    let text = element.field("Weight_Percentage");
    let number: Option<f64> = text.parse().ok();
    match number {
        Some(number) if (0.0..=100.0).contains(&number) => Ok(number),
        _ => Err(Fault::at(
            element,
            format!("'{text}' is no weight percentage for {}", element.name),
        )),
    }
}
