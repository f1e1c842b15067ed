// The judgement of `cityseq filter` in C++ on simdjson: each line is parsed whole into simdjson's document, its values are
// judged where they stand, and the line is copied where it is good. It ends at the first line that is not, with its number.
//
// It is a peer for the benchmark, and judges less than docs/RULES.md says:
// - a name that comes again is refused only among the city objects; of others the first is read;
// - a whole number has no point and no exponent, and the range of its type; other numbers are those that a double has;
// - semantics and the parts of an instance are read only where the type of the geometry has them.
#include <simdjson.h>

#include <cstdio>
#include <iostream>
#include <stdexcept>
#include <string>
#include <string_view>
#include <unordered_map>
#include <unordered_set>

namespace {

using simdjson::dom::array;
using simdjson::dom::element;
using simdjson::dom::object;
using Text = std::string_view;
using Texts = std::unordered_set<Text>;

constexpr size_t LINE_LIMIT = 8'388'608;
constexpr size_t BUFFER = 65'536;

/// How deep the boundaries of a type of geometries are, down to indices, and the semantic values beside them.
struct Form {
  int depth;
  int values;
};

const std::unordered_map<Text, Form> FORMS = {
    {"MultiPoint", {1, 0}},       {"MultiLineString", {2, 0}}, {"MultiSurface", {3, 1}},   {"CompositeSurface", {3, 1}},
    {"Solid", {4, 2}},            {"MultiSolid", {5, 3}},      {"CompositeSolid", {5, 3}},
};

/// The types of city objects, and whether each is of the second level.
const std::unordered_map<Text, bool> OBJECT_TYPES = {
    {"Bridge", false}, {"Building", false}, {"CityFurniture", false}, {"CityObjectGroup", false},
    {"GenericCityObject", false}, {"LandUse", false}, {"OtherConstruction", false}, {"PlantCover", false},
    {"Railway", false}, {"Road", false}, {"SolitaryVegetationObject", false}, {"TINRelief", false},
    {"TransportSquare", false}, {"Tunnel", false}, {"WaterBody", false}, {"Waterway", false},
    {"BridgeConstructiveElement", true}, {"BridgeFurniture", true}, {"BridgeInstallation", true}, {"BridgePart", true},
    {"BridgeRoom", true}, {"BuildingConstructiveElement", true}, {"BuildingFurniture", true},
    {"BuildingInstallation", true}, {"BuildingPart", true}, {"BuildingRoom", true}, {"BuildingStorey", true},
    {"BuildingUnit", true}, {"TunnelConstructiveElement", true}, {"TunnelFurniture", true},
    {"TunnelHollowSpace", true}, {"TunnelInstallation", true}, {"TunnelPart", true},
};

/// A city object: its type, and whom it lists.
struct CityObject {
  bool is_group;
  bool is_second_level;
  Texts children;
  Texts parents;
};

using Objects = std::unordered_map<Text, CityObject>;

void ensure(bool holds, const char *fault) {
  if (!holds) throw std::runtime_error(fault);
}

/// The member of this name, if there is one.
bool find(object parent, Text name, element &value) { return parent[name].get(value) == simdjson::SUCCESS; }

void is_below(element index, uint64_t count, const char *fault) { ensure(index.get_uint64().value() < count, fault); }

void are_numbers(array numbers, size_t count) {
  ensure(numbers.size() == count, "wrong number of numbers");
  for (element number : numbers) ensure(number.is_number(), "no number");
}

/// Boundaries: indices, or lists of them to a depth.
void judge_boundaries(element boundaries, int depth, uint64_t vertices) {
  if (depth == 0) return is_below(boundaries, vertices, "vertex index out of range");
  for (element part : array(boundaries)) judge_boundaries(part, depth - 1, vertices);
}

/// Semantic values: lists as long as those of the boundaries beside them; null may stand for each part.
void judge_values(element values, element boundaries, int depth, uint64_t surfaces) {
  if (values.is_null()) return;
  if (depth == 0) return is_below(values, surfaces, "bad semantics");
  array parts = values.get_array(), beside = boundaries.get_array();
  ensure(parts.size() == beside.size(), "bad semantics");
  auto other = beside.begin();
  for (element part : parts) {
    judge_values(part, *other, depth - 1, surfaces);
    ++other;
  }
}

void judge_semantics(object semantics, element boundaries, int depth) {
  array surfaces = semantics["surfaces"];
  for (object surface : surfaces) ensure(surface["type"].is_string(), "no type of a surface");
  judge_values(semantics["values"], boundaries, depth, surfaces.size());
}

void judge_instance(object geometry, uint64_t vertices, uint64_t templates) {
  is_below(geometry["template"], templates, "bad instance");
  are_numbers(geometry["transformationMatrix"], 16);
  array boundaries = geometry["boundaries"];
  ensure(boundaries.size() == 1, "bad instance");
  judge_boundaries(boundaries.at(0), 0, vertices);
}

/// Judges a geometry beside the vertices and the header's templates.
void judge_geometry(object geometry, uint64_t vertices, uint64_t templates) {
  Text type = geometry["type"];
  if (type == "GeometryInstance") return judge_instance(geometry, vertices, templates);
  auto form = FORMS.find(type);
  ensure(form != FORMS.end(), "unknown type of geometry");
  ensure(geometry["lod"].is_string(), "no lod");
  element boundaries = geometry["boundaries"];
  judge_boundaries(boundaries, form->second.depth, vertices);
  element semantics;
  if (form->second.values > 0 && find(geometry, "semantics", semantics)) {
    judge_semantics(semantics, boundaries, form->second.values);
  }
}

/// The texts of a member that may be missing.
Texts texts_of(object parent, Text name) {
  Texts texts;
  element list;
  if (find(parent, name, list)) {
    for (Text text : array(list)) texts.insert(text);
  }
  return texts;
}

CityObject judge_object(object city_object, uint64_t vertices, uint64_t templates) {
  Text type = city_object["type"];
  auto known = OBJECT_TYPES.find(type);
  ensure(known != OBJECT_TYPES.end(), "unknown type of city object");
  element geometries;
  if (find(city_object, "geometry", geometries)) {
    for (object geometry : array(geometries)) judge_geometry(geometry, vertices, templates);
  }
  return {type == "CityObjectGroup", known->second, texts_of(city_object, "children"), texts_of(city_object, "parents")};
}

/// Judges whom a city object lists. A group's children may be anywhere.
void judge_links(const Objects &objects, Text id, const CityObject &city_object) {
  for (Text name : city_object.children) {
    if (city_object.is_group) break;
    auto child = objects.find(name);
    ensure(child != objects.end() && child->second.parents.count(id) == 1, "child not found, or link not mutual");
  }
  bool has_parent = false;
  for (Text name : city_object.parents) {
    auto parent = objects.find(name);
    if (parent == objects.end()) continue;
    has_parent = true;
    ensure(parent->second.children.count(id) == 1, "link not mutual");
  }
  ensure(has_parent || !city_object.is_second_level, "no parent in the feature");
}

uint64_t count_vertices(array vertices) {
  uint64_t count = 0;
  for (array vertex : vertices) {
    ensure(vertex.size() == 3, "no three numbers");
    for (element number : vertex) number.get_int64().value();
    ++count;
  }
  return count;
}

void judge_feature(object feature, uint64_t templates) {
  ensure(Text(feature["type"]) == "CityJSONFeature", "wrong type");
  Text id = feature["id"];
  uint64_t vertices = count_vertices(feature["vertices"]);
  Objects objects;
  object city_objects = feature["CityObjects"];
  for (auto member : city_objects) {
    bool is_new = objects.emplace(member.key, judge_object(member.value, vertices, templates)).second;
    ensure(is_new, "duplicate name");
  }
  ensure(objects.count(id) == 1, "id not among the city objects");
  for (const auto &[name, city_object] : objects) judge_links(objects, name, city_object);
}

/// Judges the header's templates, and gives their number.
uint64_t judge_templates(object parent) {
  array vertices = parent["vertices-templates"];
  for (array vertex : vertices) are_numbers(vertex, 3);
  array templates = parent["templates"];
  for (object geometry : templates) judge_geometry(geometry, vertices.size(), 0);
  return templates.size();
}

/// Judges the header, and gives the number of its templates.
uint64_t judge_header(object header) {
  ensure(Text(header["type"]) == "CityJSON" && Text(header["version"]) == "2.0", "wrong type or version");
  are_numbers(header["transform"]["scale"], 3);
  are_numbers(header["transform"]["translate"], 3);
  ensure(header["CityObjects"].get_object().size() == 0 && header["vertices"].get_array().size() == 0, "not empty");
  element templates;
  return find(header, "geometry-templates", templates) ? judge_templates(templates) : 0;
}

} // namespace

int main() {
  std::ios::sync_with_stdio(false);
  static char read_buffer[BUFFER], write_buffer[BUFFER];
  std::cin.rdbuf()->pubsetbuf(read_buffer, BUFFER);
  std::setvbuf(stdout, write_buffer, _IOFBF, BUFFER);
  simdjson::dom::parser parser;
  std::string line;
  uint64_t templates = 0;
  for (uint64_t number = 1; std::getline(std::cin, line); ++number) {
    bool has_lf = !std::cin.eof();
    try {
      ensure(line.size() <= LINE_LIMIT, "line too long");
      if (number > 1 && line.find_first_not_of(" \t\r") == std::string::npos) continue;
      element root = parser.parse(line);
      if (number == 1) {
        templates = judge_header(root);
      } else {
        judge_feature(root, templates);
      }
    } catch (const std::exception &fault) {
      std::fflush(stdout);
      std::cerr << "line " << number << ": " << fault.what() << '\n';
      return 1;
    }
    if (has_lf) line.push_back('\n');
    std::fwrite(line.data(), 1, line.size(), stdout);
  }
  return std::fflush(stdout) == 0 ? 0 : 1;
}
