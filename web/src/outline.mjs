// The coasts of web/data/outline.txt: polylines of [longitude, latitude] in degrees.
export function readOutline(text) {
  const lines = text.split("\n").filter((line) => line && line[0] !== "#");
  return lines.map((line) => {
    const steps = line.split(" ").map(Number);
    const points = [];
    for (let k = 0, x = 0, y = 0; k < steps.length; k += 2) points.push(
      [(x += steps[k]) / 10, (y += steps[k + 1]) / 10],
    );
    return points;
  });
}
