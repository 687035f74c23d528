// The options of vsm: their fields, limits, and what is wrong with a value.
const LIMITS = {
  low: { name: 'Low K', least: 4, most: 16360, step: 4 },
  high: { name: 'High K', least: 4, most: 1572864, step: 4 },
  history: { name: 'History', least: 1, most: 65536, step: 1 },
};

/** What is wrong with an option's value, as a sentence; or null. An omitted option is right. */
export function faultOfOption(option, value) {
  if (option === 'residence') return ['', '24', '31'].includes(value) ? null : 'Residence is 24 or 31.';
  const limits = LIMITS[option];
  if (!limits || value === '') return null;
  const { name, least, most, step } = limits, number = /^\+?\d+$/.test(value) ? Number(value) : NaN;
  if (number >= least && number <= most && number % step === 0) return null;
  return `${name} is a number from ${least} to ${most}${step > 1 ? `, a multiple of ${step}` : ''}.`;
}
