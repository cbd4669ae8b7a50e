// The codes that this issuing body uses. A device with another one is asked about before it is sent, and its certificates
// would carry the code for good; the registry itself takes any code of the right form.
//
// An issuing body's own lists stand in /etc/goo/lists.js, a copy of this file with the lists in force, which the front door
// gives in its place. A name is one for all languages, or a pair: in English, in German. The technologies and the sources
// here are common ones of the EECS Rules, Fact Sheet 5; the countries are those of the European Economic Area, their
// neighbours and the Energy Community, by ISO 3166-1.

export const COUNTRIES = {
  AL: 'Albania', AT: 'Austria', BA: 'Bosnia and Herzegovina', BE: 'Belgium', BG: 'Bulgaria', CH: 'Switzerland', CY: 'Cyprus', CZ: 'Czechia',
  DE: 'Germany', DK: 'Denmark', EE: 'Estonia', ES: 'Spain', FI: 'Finland', FR: 'France', GB: 'United Kingdom', GE: 'Georgia', GR: 'Greece',
  HR: 'Croatia', HU: 'Hungary', IE: 'Ireland', IS: 'Iceland', IT: 'Italy', LI: 'Liechtenstein', LT: 'Lithuania', LU: 'Luxembourg', LV: 'Latvia',
  MD: 'Moldova', ME: 'Montenegro', MK: 'North Macedonia', MT: 'Malta', NL: 'Netherlands', NO: 'Norway', PL: 'Poland', PT: 'Portugal',
  RO: 'Romania', RS: 'Serbia', SE: 'Sweden', SI: 'Slovenia', SK: 'Slovakia', UA: 'Ukraine', XK: 'Kosovo',
};

export const TECHNOLOGIES = {
  T010000: ['Solar', 'Solar'], T010100: ['Photovoltaic', 'Photovoltaik'], T010101: ['Photovoltaic, classic silicon', 'Photovoltaik, kristallines Silizium'], T010102: ['Photovoltaic, thin film', 'Photovoltaik, Dünnschicht'], T010200: ['Solar concentration', 'Solarthermisches Kraftwerk'],
  T020000: ['Wind', 'Wind'], T020001: ['Wind, onshore', 'Windenergie an Land'], T020002: ['Wind, offshore', 'Windenergie auf See'],
  T030000: ['Hydro', 'Wasserkraft'], T030100: ['Hydro, run of river', 'Laufwasser'], T030200: ['Hydro, storage', 'Speicherwasser'], T030300: ['Hydro, pure pumped storage', 'Pumpspeicher ohne natürlichen Zufluss'], T030400: ['Hydro, mixed pumped storage', 'Pumpspeicher mit natürlichem Zufluss'],
  T040000: ['Marine', 'Meeresenergie'], T040100: ['Marine, tidal', 'Gezeiten'], T040200: ['Marine, wave', 'Wellen'], T040300: ['Marine, currents', 'Meeresströmung'], T040400: ['Marine, pressure', 'Druck (Osmose)'],
  T050000: ['Thermal', 'Thermisch'], T050100: ['Combined cycle gas turbine with heat recovery', 'Gas- und Dampfturbine mit Abwärmenutzung'], T050200: ['Steam turbine with back-pressure turbine', 'Gegendruckdampfturbine'],
  T050300: ['Steam turbine with condensation turbine', 'Kondensationsdampfturbine'], T050400: ['Gas turbine with heat recovery', 'Gasturbine mit Abwärmenutzung'], T050500: ['Internal combustion engine', 'Verbrennungsmotor'],
  T050600: ['Micro turbine', 'Mikroturbine'], T050700: ['Stirling engine', 'Stirlingmotor'], T050800: ['Fuel cell', 'Brennstoffzelle'], T050900: ['Steam engine', 'Dampfmotor'], T051000: ['Organic Rankine cycle', 'Organic-Rankine-Kreisprozess'],
  T060000: ['Nuclear', 'Kernkraft'],
};

export const SOURCES = {
  F01000000: ['Renewable', 'Erneuerbar'],
  F01010000: ['Solid', 'Fest'], F01010100: ['Municipal waste', 'Siedlungsabfall'], F01010101: ['Municipal waste, biogenic', 'Siedlungsabfall, biogen'], F01010200: ['Industrial and commercial waste', 'Industrie- und Gewerbeabfall'],
  F01010201: ['Industrial and commercial waste, biogenic', 'Industrie- und Gewerbeabfall, biogen'], F01010300: ['Wood', 'Holz'], F01010301: ['Wood, forestry products', 'Holz aus der Forstwirtschaft'],
  F01010302: ['Wood, forestry by-products and waste', 'Waldrestholz und Holzabfälle'], F01010400: ['Animal fats', 'Tierische Fette'], F01010500: ['Biomass from agriculture', 'Biomasse aus der Landwirtschaft'],
  F01010501: ['Agricultural products', 'Landwirtschaftliche Erzeugnisse'], F01010502: ['Agricultural by-products and waste', 'Landwirtschaftliche Nebenerzeugnisse und Abfälle'],
  F01020000: ['Liquid', 'Flüssig'], F01020100: ['Municipal biodegradable waste', 'Biologisch abbaubarer Siedlungsabfall'], F01020200: ['Black liquor', 'Schwarzlauge'], F01020300: ['Pure plant oil', 'Reines Pflanzenöl'], F01020400: ['Waste plant oil', 'Altes Pflanzenöl'],
  F01020500: ['Refined vegetable oil', 'Raffiniertes Pflanzenöl'], F01020501: ['Biodiesel', 'Biodiesel'], F01020502: ['Biogasoline', 'Biobenzin'],
  F01030000: ['Gaseous', 'Gasförmig'], F01030100: ['Landfill gas', 'Deponiegas'], F01030200: ['Sewage gas', 'Klärgas'], F01030300: ['Agricultural gas', 'Biogas aus der Landwirtschaft'], F01030301: ['Animal manure', 'Gülle und Mist'],
  F01030302: ['Energy crops', 'Energiepflanzen'], F01030400: ['Gas from the digestion of organic waste', 'Biogas aus Bioabfall'], F01030500: ['Process gas, biogenic', 'Prozessgas, biogen'],
  F01040000: ['Heat', 'Wärme'], F01040100: ['Solar', 'Solar'], F01040200: ['Geothermal', 'Geothermie'], F01040300: ['Aerothermal', 'Umgebungsluft'], F01040400: ['Hydrothermal', 'Umgebungswasser'], F01040500: ['Process heat, biogenic', 'Prozesswärme, biogen'],
  F01050000: ['Mechanical or other', 'Mechanisch oder sonstige'], F01050100: ['Wind', 'Wind'], F01050200: ['Hydro and marine', 'Wasser und Meer'],
};

/** The issuing bodies by the code of their registry, as their documents shall name them: `7: 'Name, country'`. One without a name here is told by its registry's code. */
export const ISSUING_BODIES = {};

/** The lists by the name of a device's field. */
export const LISTS = {
  country: {what: 'country', codes: COUNTRIES}, tech: {what: 'technology', codes: TECHNOLOGIES}, source: {what: 'energy source', codes: SOURCES},
};
