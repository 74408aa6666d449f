// Russian names of cities, by the names that tzdata has.
const PAIRS =
  "Moscow=Москва|Kaliningrad=Калининград|Samara=Самара|Saratov=Саратов|Volgograd=Волгоград|" +
  "Ulyanovsk=Ульяновск|Kirov=Киров|Astrakhan=Астрахань|Yekaterinburg=Екатеринбург|Omsk=Омск|" +
  "Novosibirsk=Новосибирск|Barnaul=Барнаул|Tomsk=Томск|Novokuznetsk=Новокузнецк|Krasnoyarsk=Красноярск|" +
  "Irkutsk=Иркутск|Chita=Чита|Yakutsk=Якутск|Khandyga=Хандыга|Vladivostok=Владивосток|Ust-Nera=Усть-Нера|" +
  "Magadan=Магадан|Sakhalin=Сахалин|Srednekolymsk=Среднеколымск|Kamchatka=Камчатка|Anadyr=Анадырь|" +
  "Simferopol=Симферополь|Kyiv=Киев|Minsk=Минск|Chisinau=Кишинёв|Riga=Рига|Vilnius=Вильнюс|Tallinn=Таллин|" +
  "Tbilisi=Тбилиси|Yerevan=Ереван|Baku=Баку|Almaty=Алматы|Qyzylorda=Кызылорда|Aqtau=Актау|Aqtobe=Актобе|" +
  "Atyrau=Атырау|Oral=Уральск|Qostanay=Костанай|Tashkent=Ташкент|Samarkand=Самарканд|Bishkek=Бишкек|" +
  "Dushanbe=Душанбе|Ashgabat=Ашхабад|Ulaanbaatar=Улан-Батор|Hovd=Ховд|London=Лондон|Paris=Париж|Berlin=Берлин|" +
  "Potsdam=Потсдам|Madrid=Мадрид|A Coruña=Ла-Корунья|Lisbon=Лиссабон|Rome=Рим|Vienna=Вена|Prague=Прага|" +
  "Warsaw=Варшава|Budapest=Будапешт|Bucharest=Бухарест|Sofia=София|Athens=Афины|Istanbul=Стамбул|" +
  "Belgrade=Белград|Zagreb=Загреб|Ljubljana=Любляна|Bratislava=Братислава|Sarajevo=Сараево|Skopje=Скопье|" +
  "Tirane=Тирана|Podgorica=Подгорица|Zurich=Цюрих|Brussels=Брюссель|Amsterdam=Амстердам|Luxembourg=Люксембург|" +
  "Copenhagen=Копенгаген|Oslo=Осло|Stockholm=Стокгольм|Helsinki=Хельсинки|Reykjavik=Рейкьявик|Dublin=Дублин|" +
  "Monaco=Монако|Malta=Мальта|Nicosia=Никосия|Jerusalem=Иерусалим|Beirut=Бейрут|Damascus=Дамаск|Amman=Амман|" +
  "Baghdad=Багдад|Tehran=Тегеран|Riyadh=Эр-Рияд|Dubai=Дубай|Qatar=Катар|Kuwait=Кувейт|Kabul=Кабул|" +
  "Karachi=Карачи|Kolkata=Калькутта|Colombo=Коломбо|Dhaka=Дакка|Kathmandu=Катманду|Yangon=Янгон|" +
  "Bangkok=Бангкок|Ho Chi Minh=Хошимин|Singapore=Сингапур|Jakarta=Джакарта|Manila=Манила|Hong Kong=Гонконг|" +
  "Shanghai=Шанхай|Urumqi=Урумчи|Taipei=Тайбэй|Seoul=Сеул|Pyongyang=Пхеньян|Tokyo=Токио|Cairo=Каир|" +
  "Tripoli=Триполи|Tunis=Тунис|Algiers=Алжир|Casablanca=Касабланка|Lagos=Лагос|Nairobi=Найроби|" +
  "Addis Ababa=Аддис-Абеба|Johannesburg=Йоханнесбург|Khartoum=Хартум|Dakar=Дакар|Kinshasa=Киншаса|" +
  "Canary=Канарские острова|Azores=Азорские острова|Madeira=Мадейра|New York=Нью-Йорк|Chicago=Чикаго|" +
  "Denver=Денвер|Los Angeles=Лос-Анджелес|Dallas=Даллас|Salem=Сейлем|Hopkinsville=Хопкинсвилл|" +
  "Albuquerque=Альбукерке|Anchorage=Анкоридж|Honolulu=Гонолулу|Toronto=Торонто|Vancouver=Ванкувер|" +
  "Halifax=Галифакс|Winnipeg=Виннипег|Edmonton=Эдмонтон|Mexico City=Мехико|Havana=Гавана|Panama=Панама|" +
  "Bogota=Богота|Caracas=Каракас|Lima=Лима|La Paz=Ла-Пас|Santiago=Сантьяго|Buenos Aires=Буэнос-Айрес|" +
  "Montevideo=Монтевидео|Asuncion=Асунсьон|Sao Paulo=Сан-Паулу|Sydney=Сидней|Melbourne=Мельбурн|Perth=Перт|" +
  "Brisbane=Брисбен|Adelaide=Аделаида|Darwin=Дарвин|Hobart=Хобарт|Auckland=Окленд";

export const RUSSIAN_CITIES = Object.fromEntries(PAIRS.split("|").map((pair) => pair.split("=")));
