// @ts-check
/** The classes and enumerations. */

/**
 * A feature of a class.
 * @typedef {object} Feature
 * @property {string} name
 * @property {string} type
 * @property {number} lower
 * @property {number} upper
 * @property {boolean} many
 * @property {boolean} refers whether its values are objects
 * @property {boolean} contains
 * @property {boolean} [holds] whether it leads to the container
 * @property {string | null} [opposite]
 * @property {boolean} [unique]
 * @property {boolean} [unsettable]
 * @property {any} [default]
 */

/**
 * A class as the server describes it.
 * @typedef {{abstract: boolean, supers: string[], features: Feature[]}} Described
 */

/** The feature of a resource. @type {Feature} */
export const CONTENTS = { name: 'contents', type: '', lower: 0, upper: -1, many: true, refers: true, contains: true };

export class Metamodel {
  /** @param {{classes: Record<string, Described>, enums: Record<string, string[]>}} described */
  constructor(described) {
    /** @type {Map<string, Described>} */
    this.classes = new Map(Object.entries(described.classes));
    /** @type {Map<string, string[]>} */
    this.enums = new Map(Object.entries(described.enums));
    /** @type {Map<string, Map<string, Feature>>} */
    this.features = new Map();
    /** @type {Map<string, Set<string>>} */
    this.above = new Map();
    /** @type {Map<string, Feature[]>} */
    this.parts = new Map();
  }

  /**
   * All features of a class by name, own and inherited, those of the supertypes first.
   * @param {string | null} name null for a resource
   * @returns {Map<string, Feature>}
   */
  featuresOf(name) {
    if (name === null) {
      return new Map([[CONTENTS.name, CONTENTS]]);
    }
    let found = this.features.get(name);
    if (!found) {
      found = new Map();
      const described = this.classes.get(name);
      for (const above of described ? described.supers : []) {
        for (const [key, feature] of this.featuresOf(above)) {
          found.has(key) || found.set(key, feature);
        }
      }
      for (const feature of described ? described.features : []) {
        found.set(feature.name, feature);
      }
      this.features.set(name, found);
    }
    return found;
  }

  /**
   * The containment features of a class.
   * @param {string | null} name
   * @returns {Feature[]}
   */
  partsOf(name) {
    if (name === null) {
      return [CONTENTS];
    }
    let found = this.parts.get(name);
    if (!found) {
      found = [...this.featuresOf(name).values()].filter((it) => it.contains);
      this.parts.set(name, found);
    }
    return found;
  }

  /**
   * Whether an object of a class can be used as an object of another class.
   * @param {string} name
   * @param {string} wanted empty for any class
   * @returns {boolean}
   */
  conforms(name, wanted) {
    let above = this.above.get(name);
    if (!above) {
      above = new Set([name]);
      for (const it of above) {
        this.classes.get(it)?.supers.forEach((more) => above?.add(more));
      }
      this.above.set(name, above);
    }
    return wanted === '' || above.has(wanted);
  }

  /**
   * The classes that conform to a class, by name.
   * @param {string} wanted
   * @returns {string[]}
   */
  concrete(wanted) {
    return [...this.classes].filter(([name, it]) => !it.abstract && this.conforms(name, wanted)).map(([name]) => name).sort();
  }
}
