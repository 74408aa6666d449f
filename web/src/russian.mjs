// Every word that the page shows, in Russian.
import { RUSSIAN_CITIES } from "./russiancities.mjs";

const IMENA = {
  station: "номер станции",
  latitude: "широта",
  longitude: "долгота",
  height: "высота",
  "delta t": "\u0394T",
  first: "первая секунда окна",
  last: "последняя секунда окна",
  guard: "запас",
  radius: "радиус Луны",
};
const poRusski = (name) => IMENA[name] ?? name;
const sBolshoy = (words) => words[0].toUpperCase() + words.slice(1);

export const RUSSIAN_TEXTS = {
  language: "Русский",
  locale: "ru-RU",
  title: "Солнечные затмения в вашем месте",
  lead:
    "Выберите затмение, выберите место — и вы увидите, что будет видно. Всё вычисляется здесь, в вашем браузере и " +
    "без сети, " +
    "библиотекой, каждый ответ которой доказан.",
  skip: "Перейти к листу",
  languages: "Язык",
  failed: "Страница не запустилась: ",
  cities: RUSSIAN_CITIES,

  choose: {
    eclipse: "Затмение",
    eclipseHint: "Наберите год или месяц, например 2027 или 1999-08",
    place: "Место",
    placeHint: "Город или координаты, например 55,75; 37,62",
    nothing: "Ничего не подходит",
    coming: "Будущие",
    past: "Прошедшие",
    device: "Где я сейчас",
    deviceWait: "Запрашивается местоположение \u2026",
    deviceFailed: "Браузер не сообщил местоположение.",
    deviceName: "Моё место",
    pointed: "Место на карте",
    pasted: "Эти координаты",
    height: "Высота, м",
    zone: "Часовой пояс",
    zoneOfBrowser: (zone) => `этого устройства (${zone})`,
    ownText: "Свой текст",
  },
  kinds: { P: "Частное", A: "Кольцеобразное", T: "Полное", H: "Гибридное" },
  goes: (countries, more) => countries.join(", ") + (more ? " \u2026" : ""),
  goesNowhere: (country) => `вдали от городов; больше всего: ${country}`,

  options: {
    title: "Параметры",
    radii: "Радиусы Солнца и Луны",
    document02: "документ 02 (k 0.272274)",
    iau: "МАС (k 0.2725076, 0.272281)",
    radiiHint:
      "k — радиус Луны в радиусах Земли. Два радиуса МАС, для внешних и внутренних контактов, нужны для сравнения с " +
      "опубликованными временами: затмение начинается раньше и кончается позже, в медиане на 2.3 с.",
    deltaT: "\u0394T, с",
    deltaTHint: (seconds, source) =>
      `В каталоге ${seconds} с, ${source}. Лишняя секунда сдвигает контакт по всемирному времени примерно на 1.2 с ` +
        "(медиана; у 1 из 100 на 7 с).",
    sources: { O: "по наблюдениям", X: "экстраполяция", F: "прогноз, который может ошибаться на секунды и больше" },
    guard: "Запас, единицы по 6.4 см",
    guardHint:
      "Насколько близко к краю тени ничего не утверждается. С 32 (2 м) всё, что сказано в листе, доказано для " +
        "формул Бесселя без округлений.",
    reset: "Как в каталоге",
  },

  map: {
    title: "Где оно видно",
    label:
      "Карта мира; цвет показывает наибольшую фазу при Солнце над горизонтом. Стрелки двигают крест, плюс и минус " +
      "меняют масштаб, Enter берёт место.",
    hint: "Щелчок берёт место; перетаскивание двигает карту, кнопки, + и \u2212 или Ctrl с колесом меняют масштаб.",
    closer: "Ближе",
    farther: "Дальше",
    whole: "Весь мир",
    none: "ничего не видно",
    annular: "кольцеобразное",
    total: "полное",
    legend: "Наибольшая фаза при Солнце над горизонтом",
    working: "вычисляется \u2026",
    done: (cells, seconds, degrees) =>
      `Листов: ${cells} за ${seconds} с; клетки по ${degrees}\u00b0, вдоль полосы мельче`,
    cross: (latitude, longitude) => `Крест: ${latitude}, ${longitude}`,
    star: "Для покрытия звезды карты нет.",
  },

  own: {
    title: "Свои элементы или звезда: запрос как текст",
    example: "Пример",
    ownText: "свой текст",
    typed: "Запрос",
    typedHint:
      "В строке одно имя и значение; # начинает примечание. Текст, в котором назван radius, — запрос о звезде за " +
      "Луной.",
    fields: {
      title: "Заголовок листа",
      instant: "Дата и время секунды 0",
      station: "Номер",
      latitude: "Широта, \u00b0 к северу",
      longitude: "Долгота, \u00b0 к востоку",
      height: "Высота, м",
      "delta t": "\u0394T, с",
    },
    instantHint: "например 2017-08-21 18:00:00 ET, или UT",
  },

  take: {
    print: "Печать или PDF",
    link: "Скопировать ссылку",
    linked: "Скопировано: ссылка на этот лист.",
    notCopied: "Ничего не скопировано: браузер не разрешает. Ссылка есть в адресной строке.",
    contacts: "Контакты (CSV)",
    curve: "Кривая (CSV)",
    minutes: "по минутам",
    seconds: "по секундам",
    calendar: "Календарь (ICS)",
    text: "Запрос (текст)",
    bytes: "Запрос (байты)",
    sheetBytes: "Лист (байты)",
    more: "Взять с собой",
    saved: (name) => `Сохранено: ${name}.`,
    calendarNote: "Вычислено для этих элементов; края Луны, рефракции и погрешностей самих элементов здесь нет.",
  },

  sheetTitle: (date, place) => `Солнечное затмение ${date}: ${place}`,
  sheet: {
    untitled: (station) => `Станция ${station}`,
    station: (number) => `станция ${number}`,
    latitude: (degrees, south) => `${degrees}\u00b0 ${south ? "ю. ш." : "с. ш."}`,
    longitude: (degrees, west) => `${degrees}\u00b0 ${west ? "з. д." : "в. д."}`,
    height: (metres) => `${metres} м`,
    deltaT: (seconds) => `\u0394T ${seconds} с`,
    guard: (units, metres) => `запас ${units} (${metres} м)`,
    radii: { document02: "радиусы документа 02", iau: "радиусы МАС" },
    instant: (words) => `секунда 0 — ${words}`,
    noInstant: "момент не задан, поэтому время в секундах от момента элементов",
    window: (first, last) => `окно от ${first} до ${last} с`,
    rows: "Контакты",
    scales: "Время",
    pictures: "Вид на небе",
    up: "Вверху",
    northUp: "север",
    zenithUp: "зенит",
    picturesHint: (zenith) =>
      `${zenith ? "Вверху зенит, как видит глаз" : "Вверху север, восток слева"}. Клин показывает, где край Луны ` +
      "касается края Солнца." +
      " Тёмное небо: Солнце под горизонтом.",
    picturesHintStar: (zenith) =>
      `${zenith ? "Вверху зенит" : "Вверху север, восток слева"}; Луна неподвижна, звезда заходит за неё.`,
    morePictures: (count) => `и ещё ${count}`,
    curve: "Фаза и закрытая доля",
    legend: { magnitude: "фаза", share: "закрытая доля диска", night: "Солнце под горизонтом" },
    listing: "Лист как распечатка",
    foot: (star, clock) =>
      [
        clock
          ? "Контакт лежит между двумя указанными временами, округлёнными наружу."
          : "Контакт лежит между двумя указанными секундами.",
        "Верно для этих элементов; края Луны, рефракции и погрешностей самих элементов здесь нет.",
        `Углы при контакте: точки касания краёв, если смотреть из центра ${star ? "Луны" : "Солнца"}; от севера к ` +
          "востоку и так же от зенита.",
        ...(
          star ? [] : [
            "Ось ближе всего: до оси тени расстояние наименьшее; наибольшая фаза не дальше чем в 16 с от этого.",
          ]
        ),
        "Высота центра без рефракции; ниже \u22120.8\u00b0 — под горизонтом. Края — окружности. Широта " +
          "геодезическая, на эллипсоиде Красовского.",
        ...(clock ? ["UT — всемирное время по вращению Земли, UTC показывают часы GPS, ET — эфемеридное время."] : []),
      ].join(" "),
  },

  verdict: {
    none: "Здесь затмения нет: тень Луны проходит мимо.",
    down: "Здесь ничего не видно: Солнце под горизонтом в течение всего затмения.",
    partial: (percent, time) => `Частное затмение: закрыто не больше ${percent} диаметра Солнца${time}.`,
    partialAtHorizon: (percent, time) => `Частное затмение: закрыто ${percent} диаметра Солнца, когда оно ${time}.`,
    total: (duration, time) => `Полное затмение: полная фаза${duration}${time}.`,
    annular: (duration, time) => `Кольцеобразное затмение: кольцо${duration}${time}.`,
    lasts: (duration) => ` длится ${duration}`,
    at: (time, altitude) => `, в ${time} при высоте Солнца ${altitude}`,
    rises: "восходит",
    sets: "заходит",
    star: "Звезда заходит за Луну.",
    noStar: "Здесь звезда не заходит за Луну.",
    starDown: "Звезда всё время под горизонтом.",
  },
  notes: {
    begun: "Когда окно началось, затмение уже шло: его начало лежит раньше первой секунды.",
    goesOn: "Когда окно кончается, затмение ещё идёт: его конец лежит позже последней секунды.",
    someDown: "Серые строки: Солнце тогда под горизонтом, и этого не видно.",
    presumed: (day) => `UTC предположительно: дополнительные секунды известны только до ${day}.`,
    noUtc: "До 1972 года UTC нет: местное время взято по всемирному.",
    extrapolated: "\u0394T для этой даты не наблюдено, а экстраполировано: времена могут немного отличаться.",
    forecast: "\u0394T для этой даты — прогноз: времена могут отличаться на секунды, к концу века на десятки секунд.",
    guard: "С запасом меньше 32 лист верен по правилам документа 01, но не доказан для формул Бесселя без округлений.",
    noContact: "В этом окне край тени не проходит через станцию: контактов нет.",
  },
  durations: {
    title: "Сколько длится",
    penumbra: "Частное затмение, от первого до последнего контакта",
    total: "Полная фаза",
    annular: "Кольцо",
    star: "За Луной",
    hours: "ч",
    minutes: "мин",
    seconds: "с",
    to: "\u2013",
  },

  columns: {
    number: "",
    what: "Что",
    local: "Местное время",
    UTC: "UTC",
    UT: "UT",
    ET: "ET",
    seconds: "Секунды",
    sun: "Солнце",
    star: "Звезда",
    point: "Точка касания",
  },
  scaleNames: { local: "местное", UTC: "UTC", UT: "UT", ET: "ET", seconds: "секунды" },
  zone: (zone, ahead) => `${zone} (UTC${ahead})`,
  to: "\u2013",
  high: (degrees) => `высота ${degrees}\u00b0`,
  down: "под горизонтом",
  edge: "у горизонта",
  azimuth: (degrees, side) => `${degrees}\u00b0 ${side}`,
  sides: ["С", "СВ", "В", "ЮВ", "Ю", "ЮЗ", "З", "СЗ"],
  point: {
    north: (degrees) => `${degrees}\u00b0 от севера`,
    zenith: (degrees) => `${degrees}\u00b0 от зенита`,
    moon: (degrees, zenith) => `центр Луны напротив: ${degrees}\u00b0, ${zenith}\u00b0`,
    none: "нет: центры совпадают",
  },

  row(entry, { star, total, share, unsure, head }) {
    const kind = total ? "полной фазы" : "кольца";
    const shadow = { penumbra: "край полутени", central: "край центральной тени", star: "край Луны" }[entry.phase];
    const long = unsure ? unsure[1] - unsure[0] + 1 : 0;
    const tooNear = `${long} с ${shadow} слишком близок, чтобы сказать, по какую сторону от него станция`;
    const noClaim = "Контакт не утверждается, хотя он может быть.";
    const unsureWords = unsure
      ? `${long} с между ними лежат в пределах запаса от края, и о них ничего не утверждается.`
      : "";
    const contact = (words) => (unsureWords ? `${words}. ${unsureWords}` : words);
    const percent = (millionths, decimals) => (
      Math.floor(millionths / 10 ** (4 - decimals)) / 10 ** decimals
    ).toFixed(decimals);
    switch (entry.name) {
      case "closest":
        if (star) return ["Ось ближе всего", "ось, проходящая через Луну, ближе всего к станции"];
        if (entry.magnitude === 0) return ["Ось ближе всего", "Солнце не закрыто"];
        return [
          entry.second === head.first || entry.second === head.last ? "Ось ближе всего в этом окне" : "Ось ближе всего",
          `фаза ${(entry.magnitude / 1e6).toFixed(6)}, закрыто ${percent(share, 2)} % диска`,
        ];
      case "rises":
      case "sets":
        return [
          star ? (
            entry.name === "rises" ? "Звезда восходит" : "Звезда заходит"
          ) : entry.name === "rises" ? "Солнце восходит" : "Солнце заходит",
          star ? "" : `фаза ${(entry.magnitude / 1e6).toFixed(3)}, закрыто ${percent(entry.share, 0)} % диска`,
        ];
      case "enter":
        if (entry.phase === "star") return ["Звезда исчезает", unsureWords];
        if (entry.phase === "penumbra") return ["Начало затмения", contact("первый контакт")];
        return [`Начало ${kind}`, contact("второй контакт")];
      case "leave":
        if (entry.phase === "star") return ["Звезда появляется", unsureWords];
        if (entry.phase === "penumbra") return ["Конец затмения", contact("последний контакт")];
        return [`Конец ${kind}`, contact("третий контакт")];
      case "graze":
        return ["Касание", `${tooNear}; до и после этого она по одну и ту же сторону. ${noClaim}`];
      default: {
        const [start, end] = [entry.from === head.first, entry.to === head.last];
        const where = start && end ? "" : start ? " в начале окна" : " в конце окна";
        return [`Открыто${where}`, `${tooNear}. ${noClaim}`];
      }
    }
  },

  picture: { north: "С", east: "В", zenith: "зенит", label: (title, time) => `${title}, ${time}` },
  graph: {
    label: "Фаза и закрытая доля диска Солнца по времени. Стрелки двигают указатель.",
    unsure: "не утверждается: в пределах запаса от края тени",
    reading: (time, magnitude, share, altitude) =>
      `${time} \u00b7 фаза ${magnitude} \u00b7 закрыто ${share} % \u00b7 Солнце ${altitude}\u00b0`,
  },

  here: {
    title: (place) => `Все затмения, 1900\u20132100: ${place}`,
    columns: {
      date: "Дата",
      kind: "Здесь видно",
      magnitude: "Фаза",
      time: "Местное время",
      altitude: "Солнце",
      world: "В мире",
    },
    kinds: { partial: "частное", annular: "кольцо", total: "полное", down: "Солнца нет" },
    all: "все видимые",
    coming: "будущие",
    central: "полные и кольцеобразные",
    everything: "и те, когда Солнце под горизонтом",
    show: "Показать",
    count: (count, all, seconds) => `Показано: ${count}; затмений вычислено: ${all} за ${seconds} с. Щелчок открывает лист.`,
    working: "вычисляется \u2026",
    open: (date) => `Открыть лист: ${date}`,
    atHorizon: "на восходе или закате",
    caption: "Наибольшая фаза при Солнце над горизонтом и её время; высота Солнца тогда же.",
  },

  refused: "Листа нет",
  atLine: (line) => `Строка ${line}`,
  fault({ name, wrong }) {
    if (wrong.startsWith("unknown name ")) return `Такого имени нет: «${wrong.slice(13)}».`;
    if (name === "") return `${sBolshoy(wrong)}.`;
    const start = sBolshoy(poRusski(name));
    switch (wrong) {
      case "is missing":
        return `${start}: нет значения, нужна строка «${name} \u2026».`;
      case "is given twice":
        return `${start}: значение дано дважды.`;
      case "is not a number":
        return `${start}: это не число. Допустимы цифры, точка и знак, ничего больше.`;
      case "has too many decimals for a whole number of units":
        return `${start}: знаков после точки больше, чем считает библиотека; ничего не округляется.`;
      case "is too large for its bytes":
        return `${start}: слишком большое число.`;
      case "is not a date and time":
        return "Момент — не дата и время вида 2017-08-21 18:00:00 ET (или UT в конце).";
      default:
        return `${start}: ${wrong}.`;
    }
  },
  refusal({ number, place }, ranges) {
    const told = ` (отказ ${number}, место ${place})`;
    if (number === 1 && place === 0)
      return `В окне должно быть \u221210800 \u2264 first \u2264 last \u2264 10800${told}.`;
    if (ranges.length === 0) return `Библиотека отказывает в этом запросе${told}.`;
    const [[name, low, high]] = ranges;
    return `${sBolshoy(poRusski(name))}: вне пределов от ${low} до ${high}${told}.`;
  },
};
