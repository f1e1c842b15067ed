//! The judgement of `cityseq filter` in plain Rust: each line is read by serde into typed values, which are then
//! checked, and is copied where it is good. It ends at the first line that is not, with the line's number.
//!
//! It is a peer for the benchmark, and judges as serde does where docs/RULES.md says more:
//! - a name that comes again is refused only where it is read here, and a lone surrogate too;
//! - an array may stand for an object;
//! - a whole number has no point and no exponent, and all of its type's range; the numbers of a header are floats;
//! - how deep arrays and objects may stand is serde_json's to say;
//! - a member that is read for one type of geometry has its kind in each.
use serde::de::{Deserializer, Error, IgnoredAny, MapAccess, Visitor};
use serde::Deserialize;
use serde_json::value::RawValue;
use std::borrow::Cow;
use std::collections::{HashMap, HashSet};
use std::fmt;
use std::io::{self, BufRead, BufReader, BufWriter, Read, Write};
use std::process::ExitCode;

const LINE_LIMIT: usize = 8_388_608;

/// A text that is copied only where it has escapes.
#[derive(Deserialize, PartialEq, Eq, Hash)]
struct Text<'a>(#[serde(borrow)] Cow<'a, str>);

#[derive(Deserialize)]
enum HeaderType {
    #[serde(rename = "CityJSON")]
    Header,
}

#[derive(Deserialize)]
enum Version {
    #[serde(rename = "2.0")]
    Two,
}

#[derive(Deserialize)]
enum FeatureType {
    #[serde(rename = "CityJSONFeature")]
    Feature,
}

/// The types of the first level, then those of the second.
#[rustfmt::skip]
#[derive(Deserialize, PartialEq, PartialOrd)]
enum ObjectType {
    Bridge, Building, CityFurniture, CityObjectGroup, GenericCityObject, LandUse, OtherConstruction, PlantCover,
    Railway, Road, SolitaryVegetationObject, #[serde(rename = "TINRelief")] TinRelief, TransportSquare, Tunnel,
    WaterBody, Waterway,
    BridgeConstructiveElement, BridgeFurniture, BridgeInstallation, BridgePart, BridgeRoom,
    BuildingConstructiveElement, BuildingFurniture, BuildingInstallation, BuildingPart, BuildingRoom,
    BuildingStorey, BuildingUnit,
    TunnelConstructiveElement, TunnelFurniture, TunnelHollowSpace, TunnelInstallation, TunnelPart,
}

#[derive(Deserialize, Clone, Copy, PartialEq)]
enum GeometryType {
    MultiPoint,
    MultiLineString,
    MultiSurface,
    CompositeSurface,
    Solid,
    MultiSolid,
    CompositeSolid,
    GeometryInstance,
}

#[derive(Deserialize)]
struct Header<'a> {
    #[serde(rename = "type")]
    _type: HeaderType,
    #[serde(rename = "version")]
    _version: Version,
    #[serde(rename = "transform")]
    _transform: Transform,
    #[serde(borrow, rename = "CityObjects")]
    objects: HashMap<Text<'a>, IgnoredAny>,
    vertices: Vec<IgnoredAny>,
    #[serde(borrow, default, rename = "geometry-templates", deserialize_with = "present")]
    templates: Option<Templates<'a>>,
}

#[derive(Deserialize)]
struct Transform {
    #[serde(rename = "scale")]
    _scale: [f64; 3],
    #[serde(rename = "translate")]
    _translate: [f64; 3],
}

#[derive(Deserialize)]
struct Templates<'a> {
    #[serde(borrow)]
    templates: Vec<Geometry<'a>>,
    #[serde(rename = "vertices-templates")]
    vertices: Vec<[f64; 3]>,
}

#[derive(Deserialize)]
struct Feature<'a> {
    #[serde(rename = "type")]
    _type: FeatureType,
    #[serde(borrow)]
    id: Text<'a>,
    #[serde(borrow, rename = "CityObjects", deserialize_with = "distinct")]
    objects: HashMap<Text<'a>, CityObject<'a>>,
    vertices: Vec<[i64; 3]>,
}

#[derive(Deserialize)]
struct CityObject<'a> {
    #[serde(rename = "type")]
    object_type: ObjectType,
    #[serde(borrow, default)]
    geometry: Vec<Geometry<'a>>,
    #[serde(borrow, default)]
    children: HashSet<Text<'a>>,
    #[serde(borrow, default)]
    parents: HashSet<Text<'a>>,
}

/// Boundaries and values wait as text until the type is known, which may come after them.
#[derive(Deserialize)]
struct Geometry<'a> {
    #[serde(rename = "type")]
    geometry_type: GeometryType,
    #[serde(borrow, default, deserialize_with = "present")]
    lod: Option<Text<'a>>,
    #[serde(borrow)]
    boundaries: &'a RawValue,
    #[serde(borrow, default, deserialize_with = "present")]
    semantics: Option<Semantics<'a>>,
    #[serde(default, deserialize_with = "present")]
    template: Option<u32>,
    #[serde(default, rename = "transformationMatrix", deserialize_with = "present")]
    matrix: Option<[f64; 16]>,
}

#[derive(Deserialize)]
struct Semantics<'a> {
    #[serde(borrow)]
    surfaces: Vec<Surface<'a>>,
    #[serde(borrow)]
    values: &'a RawValue,
}

#[derive(Deserialize)]
struct Surface<'a> {
    #[serde(borrow, rename = "type")]
    _type: Text<'a>,
}

/// A member that may be missing, but is not `null`.
fn present<'de, D: Deserializer<'de>, T: Deserialize<'de>>(from: D) -> Result<Option<T>, D::Error> {
    T::deserialize(from).map(Some)
}

/// The city objects, whose names differ.
fn distinct<'de, D: Deserializer<'de>>(from: D) -> Result<HashMap<Text<'de>, CityObject<'de>>, D::Error> {
    struct Distinct;
    impl<'de> Visitor<'de> for Distinct {
        type Value = HashMap<Text<'de>, CityObject<'de>>;

        fn expecting(&self, f: &mut fmt::Formatter) -> fmt::Result {
            f.write_str("an object of city objects")
        }

        fn visit_map<A: MapAccess<'de>>(self, mut members: A) -> Result<Self::Value, A::Error> {
            let mut objects = HashMap::new();
            while let Some((id, object)) = members.next_entry()? {
                if objects.insert(id, object).is_some() {
                    return Err(A::Error::custom("duplicate name"));
                }
            }
            Ok(objects)
        }
    }
    from.deserialize_map(Distinct)
}

/// Boundaries: indices, or lists of them to a depth.
trait Boundaries {
    fn are_below(&self, count: usize) -> bool;
}

impl Boundaries for u32 {
    fn are_below(&self, count: usize) -> bool {
        (*self as usize) < count
    }
}

impl<B: Boundaries> Boundaries for Vec<B> {
    fn are_below(&self, count: usize) -> bool {
        self.iter().all(|part| part.are_below(count))
    }
}

/// Semantic values: lists as long as those of the boundaries beside them; `null` may stand for each part.
trait Values<B> {
    fn fit(&self, beside: &B, surfaces: usize) -> bool;
}

impl<B> Values<B> for Option<u32> {
    fn fit(&self, _: &B, surfaces: usize) -> bool {
        self.is_none_or(|index| (index as usize) < surfaces)
    }
}

impl<B, V: Values<B>> Values<Vec<B>> for Option<Vec<V>> {
    fn fit(&self, beside: &Vec<B>, surfaces: usize) -> bool {
        self.as_ref().is_none_or(|values| {
            values.len() == beside.len() && values.iter().zip(beside).all(|(value, part)| value.fit(part, surfaces))
        })
    }
}

type Fault = Box<dyn std::error::Error>;

/// A fault with this text, where something does not hold.
fn ensure(holds: bool, fault: &'static str) -> Result<(), Fault> {
    holds.then_some(()).ok_or_else(|| fault.into())
}

type Surfaces = Vec<Vec<Vec<u32>>>;
type SurfaceValues = Option<Vec<Option<u32>>>;

impl Geometry<'_> {
    /// Judges the geometry beside the vertices, and the header's templates.
    fn judge(&self, vertices: usize, templates: usize) -> Result<(), Fault> {
        use GeometryType::*;
        if self.geometry_type != GeometryInstance {
            ensure(self.lod.is_some(), "no lod")?;
        }
        match self.geometry_type {
            MultiPoint => self.bounded::<Vec<u32>>(vertices).map(drop),
            MultiLineString => self.bounded::<Vec<Vec<u32>>>(vertices).map(drop),
            MultiSurface | CompositeSurface => self.valued::<Surfaces, SurfaceValues>(vertices),
            Solid => self.valued::<Vec<Surfaces>, Option<Vec<SurfaceValues>>>(vertices),
            MultiSolid | CompositeSolid => {
                self.valued::<Vec<Vec<Surfaces>>, Option<Vec<Option<Vec<SurfaceValues>>>>>(vertices)
            }
            GeometryInstance => {
                let known = self.template.is_some_and(|index| (index as usize) < templates);
                ensure(known && self.matrix.is_some(), "bad instance")?;
                let boundaries: Vec<u32> = self.bounded(vertices)?;
                ensure(boundaries.len() == 1, "bad instance")
            }
        }
    }

    /// The boundaries, with indices of vertices.
    fn bounded<'a, B: Boundaries + Deserialize<'a>>(&'a self, vertices: usize) -> Result<B, Fault> {
        let boundaries: B = serde_json::from_str(self.boundaries.get())?;
        ensure(boundaries.are_below(vertices), "vertex index out of range")?;
        Ok(boundaries)
    }

    /// Judges boundaries, and the semantic values beside them.
    fn valued<'a, B, V>(&'a self, vertices: usize) -> Result<(), Fault>
    where
        B: Boundaries + Deserialize<'a>,
        V: Values<B> + Deserialize<'a>,
    {
        let boundaries: B = self.bounded(vertices)?;
        let Some(semantics) = &self.semantics else { return Ok(()) };
        let values: V = serde_json::from_str(semantics.values.get())?;
        ensure(values.fit(&boundaries, semantics.surfaces.len()), "bad semantics")
    }
}

impl Header<'_> {
    /// Judges the header, and gives the number of its templates.
    fn judge(&self) -> Result<usize, Fault> {
        ensure(self.objects.is_empty() && self.vertices.is_empty(), "not empty")?;
        let Some(Templates { templates, vertices }) = &self.templates else { return Ok(0) };
        for template in templates {
            ensure(template.geometry_type != GeometryType::GeometryInstance, "bad instance")?;
            template.judge(vertices.len(), 0)?;
        }
        Ok(templates.len())
    }
}

impl Feature<'_> {
    /// Judges the feature beside a header with so many templates.
    fn judge(&self, templates: usize) -> Result<(), Fault> {
        ensure(self.objects.contains_key(&self.id), "id not among the city objects")?;
        for (id, object) in &self.objects {
            for geometry in &object.geometry {
                geometry.judge(self.vertices.len(), templates)?;
            }
            self.judge_links(id, object)?;
        }
        Ok(())
    }

    /// Judges whom a city object lists. A group's children may be anywhere.
    fn judge_links(&self, id: &Text, object: &CityObject) -> Result<(), Fault> {
        if object.object_type != ObjectType::CityObjectGroup {
            for child in &object.children {
                let child = self.objects.get(child).ok_or("child not found")?;
                ensure(child.parents.contains(id), "link not mutual")?;
            }
        }
        let mut parents = object.parents.iter().filter_map(|parent| self.objects.get(parent)).peekable();
        let needed = object.object_type >= ObjectType::BridgeConstructiveElement;
        ensure(!needed || parents.peek().is_some(), "no parent in the feature")?;
        ensure(parents.all(|parent| parent.children.contains(id)), "link not mutual")
    }
}

/// Judges a line that is not blank. The first one leaves the number of its templates.
fn judge(text: &str, templates: &mut Option<usize>) -> Result<(), Fault> {
    match *templates {
        Some(count) => serde_json::from_str::<Feature>(text)?.judge(count),
        None => {
            *templates = Some(serde_json::from_str::<Header>(text)?.judge()?);
            Ok(())
        }
    }
}

/// Copies a line that is good, and drops a blank one after the first.
fn deal(line: &[u8], templates: &mut Option<usize>, out: &mut impl Write) -> Result<(), Fault> {
    let content = line.strip_suffix(b"\n").unwrap_or(line);
    ensure(content.len() <= LINE_LIMIT, "line too long")?;
    let text = simdutf8::basic::from_utf8(content)?;
    if templates.is_some() && content.iter().all(|byte| matches!(byte, b' ' | b'\t' | b'\r')) {
        return Ok(());
    }
    judge(text, templates)?;
    Ok(out.write_all(line)?)
}

fn main() -> io::Result<ExitCode> {
    let mut input = BufReader::with_capacity(65_536, io::stdin().lock());
    let mut out = BufWriter::with_capacity(65_536, io::stdout().lock());
    let mut line = Vec::new();
    let mut templates = None;
    for number in 1u64.. {
        line.clear();
        // a line with its LF, or the first byte past the limit
        let taken = input.by_ref().take(LINE_LIMIT as u64 + 1).read_until(b'\n', &mut line)?;
        if taken == 0 && number > 1 {
            break;
        }
        if let Err(fault) = deal(&line, &mut templates, &mut out) {
            out.flush()?;
            eprintln!("line {number}: {fault}");
            return Ok(ExitCode::FAILURE);
        }
    }
    out.flush()?;
    Ok(ExitCode::SUCCESS)
}
