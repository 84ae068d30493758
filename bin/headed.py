"""Sheets with headings as planners keep them, for bin/sheets, bin/book and bin/advices: how they are headed, their rows by columns, and what is wrong in them."""
import csv
import datetime
import difflib
import functools
import heapq
import io
import itertools
import os
import re
import unicodedata
from fractions import Fraction

MOST_SLIPS, DIGITS = 100, re.compile("-?(0|[1-9][0-9]{0,98})")
# A number with marks between thousands, with decimals, or with both.
MARKED = re.compile(r"-?(?P<whole>[0-9]{1,3}(?:(?P<group>[.,' \u2019\u00a0\u202f])[0-9]{3}(?:(?P=group)[0-9]{3})*)?|[0-9]+)"
                    r"(?:(?P<mark>[.,])(?P<decimals>[0-9]+))?")
# How --numbers says that numbers are written: which sign parts thousands, and which decimals.
FORMS = ("1.234,5", "1,234.5")
# What is said of a part of a piece.
SMALLER = "plan the item in a smaller unit (docs/limits.md, fractions)"
# What is written for letters where a keyboard hasn't them, if that isn't the letter without its mark.
LETTERS = {"ä": "ae", "ö": "oe", "ü": "ue", "ß": "ss", "æ": "ae", "œ": "oe", "þ": "th", **dict(zip("øłđðħŧı", "olddhti"))}
# What columns are headed too, in English, German, French and Spanish, as `key` has it.
PLANT = "site location facility works warehouse werk standort fabrik usine etablissement planta centro fabrica"
ITEM = "part material article sku product artikel teil teile sach produkt codearticle produit codeproduit articulo codigodearticulo producto"
PIECES = "pieces menge stueck stueckzahl quantite qte cantidad"
DATES = "date duedate delivery deliverydate datum termin liefertermin lieferdatum datelivraison datedelivraison fecha fechaentrega fechadeentrega"
EXPECTED = f"{DATES} arrival arrivaldate eta expected expecteddate ankunft arrivee datedarrivee llegada fechadellegada"
NEEDED = f"{DATES} needby needdate required requireddate faellig bedarfstermin bedarfsdatum echeance datedecheance datedebesoin fechadenecesidad fecharequerida shipdate"
LANE = {
    "From": "fromplant supplier source sourceplant sender von vonwerk lieferant lieferwerk de fournisseur expediteur desde proveedor origen",
    "To": "toplant customer destination receiver nach nachwerk kunde empfaenger vers client destinataire hasta cliente destino destinatario",
    "Item": ITEM,
}
CUSTOMER = "customername soldto shipto client kunde kunden kundenname abnehmer cliente"
FIGURE = "cum cumulativequantity cumquantity fortschrittszahl cumul acumulado"
CUM = "eingangsfortschrittszahl fortschrittszahlempfangen empfangenefortschrittszahl"
RECEIVED = f"cumulativereceived received figure empfangen {CUM} recu cumulrecu recibido acumuladorecibido"
RESTART = "startagain restart restarts reset nullstellung neustart beginntneu remiseazero recommence reinicio puestaacero"
# The days on which an order starts and on which it is done.
START = "startdate starts orderstart orderstartdate basicstart basicstartdate release releasedate begin begindate beginn startdatum starttermin"
START += " eckstarttermin freigabe freigabetermin debut datededebut lancement datedelancement inicio fechainicio fechadeinicio"
FINISH = f"{DATES} finish finishdate orderfinish orderfinishdate basicfinish basicfinishdate end enddate ende enddatum endtermin eckendtermin"
FINISH += " faellig echeance datedecheance fin datedefin fechafin fechadefin fechavencimiento"
WANTED = {"Plant": PLANT, "Item": ITEM, "Due": NEEDED, "Quantity": f"orderquantity openquantity bedarfsmenge bestellmenge offenemenge {PIECES}"}
# When an open order really comes, where that isn't when it is due.
COMES = "comeson kommt kommtam vient vientle llega llegael"
# How the number of an open order is headed.
ORDER = "order productionorder manufacturingorder workorder purchaseorder po auftrag auftrags fertigungsauftrag"
ORDER += " fertigungsauftrags bestell bestellung ordre ordredefabrication commande pedido orden ordendecompra"
# How lead times are headed in front of their unit, and the days of each unit, or what stands for days on which somebody works.
LEAD = "lead leadtime transit transittime vorlauf vorlaufzeit wiederbeschaffungszeit lieferzeit planlieferzeit durchlaufzeit"
LEAD += " delai delaidelivraison delaidapprovisionnement plazo plazodeentrega tiempodeentrega"
UNITS = {"period periods periode perioden periodes periodo periodos": 0, "week weeks woche wochen semaine semaines semana semanas": 7}
UNITS |= {"day days tag tage tagen jour jours dia dias": 1}
WORKING = -1
UNITS |= {"workingday workingdays workday workdays businessday businessdays at arbeitstag arbeitstage arbeitstagen": WORKING}
UNITS |= {"jourouvre joursouvres diahabil diashabiles dialaborable diaslaborables": WORKING}


def units(fronts):
    """Returns how a column is headed in front of its unit and with it, each with the days of the unit, 0 for periods, or WORKING."""
    words = ((unit, days) for texts, days in UNITS.items() for unit in texts.split())
    return {front + link + unit: days for (unit, days), front, link in itertools.product(words, fronts.split(), ("", "in", "en"))}


# The columns with a time, and how they are headed with each unit: the days of that unit, 0 for periods, or WORKING. What a policy
# says of periods is headed so too.
FENCE = "fence timefence planningfence planningtimefence fixierungshorizont planungszaun horizonferme horizonfige horizontefijo"
FROZEN = "frozenreleases releasesfrozen frozenzone frozenhorizon freigabenfixiert fixierteauftragsstarts lancementsgeles lanzamientoscongelados"
SOONER = "sooner countsooner receiptssooner receiptscountsooner reschedulinghorizon umterminierungshorizont horizondereordonnancement"
COVER = "cover covers safetytime sicherheitszeit delaidesecurite tiempodeseguridad"
TIMES = {"Lead": LEAD, "Fence": FENCE, "Frozen releases": FROZEN, "Sooner": SOONER, "Cover": COVER}
TIME_UNITS = {column: units(fronts) for column, fronts in TIMES.items()}
# How scrap is headed with its unit, a per cent sign or the words for it, and without.
SCRAP = "scrap componentscrap scraprate ausschuss komponentenausschuss baugruppenausschuss rebut tauxderebut tauxrebut merma desperdicio"
PERCENTS = ("percent", "inpercent", "percentage", "inprozent", "prozent", "pourcent", "enpourcent", "porciento", "enporciento")
# From which day on a row holds, and until which.
FROM = "validityfrom validfromdate effectivefrom effective effectivedate fromdate gueltigab gueltigvon gueltigvom gueltigabdatum gueltigkeitsbeginn"
FROM += " valableapartirdu valabledu debutvalidite debutdevalidite datedebutvalidite validodesde vigentedesde iniciovalidez validezdesde"
UNTIL = "validityto validtodate validuntil validthrough effectiveto effectiveuntil expirydate expirationdate todate gueltigbis gueltigbisdatum gueltigkeitsende"
UNTIL += " valablejusquau valableau finvalidite findevalidite datefinvalidite validohasta vigentehasta finvalidez validezhasta"
# The columns that name things. A row in which two cells are empty, and one of these is, may be a sum.
NAMING = {"Plant", "Item", "Parent", "Component", "From", "To", "Customer", "Vendor", "Advice"}
# The columns that a sheet may lack. Their cells may be empty.
OPTIONAL = {"Starts again", "Comes", "Since", "In transit", "Backward consumption", "Forward consumption", "Fence", "Frozen releases", "Sooner", "Cover", "Least", "Multiple"}
OPTIONAL |= {"Scrap %", "Valid from", "Valid to", "Closed on", "Until"}
# What stands for yes and for no in a cell, as `plain` has it.
YES, NO = {*"x yes y ja j oui o si s true wahr vrai verdadero 1".split()}, {*"no n nein non false falsch faux falso 0 -".split(), ""}
# How the periods are headed in which orders consume forecasts, in front of a word for periods, and without it.
BACKWARD = "consumeback backwardconsumption backwardsconsumption consumptionbackward consumptionbackwards rueckwaertsverrechnung verrechnungrueckwaerts"
BACKWARD += " consommationarriere consommationenarriere consumohaciaatras"
FORWARD = "consumeforward forwardconsumption forwardsconsumption consumptionforward consumptionforwards vorwaertsverrechnung verrechnungvorwaerts"
FORWARD += " consommationavant consommationenavant consumohaciaadelante"
PERIODS = [it for it in UNITS if not UNITS[it]][0].split()
# How the days of the week are headed on which nobody works.
WEEKEND = "closedweekdays weekend weekends weeklyclosing daysoff nonworkingdays freian frei geschlossen geschlossenan wochenende arbeitsfrei arbeitsfreietage"
WEEKEND += " ferme fermele weekend joursfermes cerrado cerradoel findesemana diascerrados"
# What was on its way then, and the day since which a figure counts, where it started again.
TRANSIT = "transit onitsway unterwegs entransit entransito"
SINCE = "countssince since seit zaehltseit compteedepuis cuentadesde"
# The columns of each sheet, and what else they are headed.
SHEETS = {
    "firm.csv": {
        "First day": "first start startdate erstertag beginn startdatum premierjour debut datededebut primerdia inicio fechadeinicio",
        "Days": "daysperperiod perioddays tage tagejeperiode tageproperiode jours joursparperiode dias diasporperiodo",
        "Periods": "numberofperiods noofperiods perioden anzahlperioden periodes nombredeperiodes periodos numerodeperiodos",
        "Backward consumption": " ".join(it + unit for it in BACKWARD.split() for unit in PERIODS),
        "Forward consumption": " ".join(it + unit for it in FORWARD.split() for unit in PERIODS),
        "Closed on": WEEKEND,
    },
    "closed.csv": {
        "Date": "day from firstday closed closedfrom holiday datum tag erstertag von vom ab geschlossenvon geschlossenab feiertag jour de du premierjour "
        "ferie fecha dia desde primerdia festivo",
        "Until": "to till lastday closeduntil closedto through bis letztertag geschlossenbis au jusquau dernierjour hasta ultimodia",
    },
    "plants.csv": {"Plant": PLANT},
    "items.csv": {
        "Plant": PLANT,
        "Item": ITEM,
        "Supply": "source sourcing procurement makeorbuy makebuy procurementtype beschaffung beschaffungsart bezug approvisionnement aprovisionamiento abastecimiento",
        "Lot rule": "rule lotsize lotsizing lotsizingrule orderpolicy losgroesse losregel tailledelot regledelot tamanodelote regladelote",
        "Lead": " ".join(TIME_UNITS["Lead"]),
        "On hand": "stock stockonhand quantityonhand onhandquantity inventory unrestricted bestand lagerbestand bestandfrei freiverwendbar enstock quantiteenstock existencias inventario",
        "Safety stock": "safety safetystockquantity sicherheitsbestand stockdesecurite stockdeseguridad existenciasdeseguridad",
        "Fence": " ".join(TIME_UNITS["Fence"]),
        "Frozen releases": " ".join(TIME_UNITS["Frozen releases"]),
        "Sooner": " ".join(TIME_UNITS["Sooner"]),
        "Cover": " ".join(TIME_UNITS["Cover"]),
        "Least": "leastorder minimumorder minimumorderquantity minorderquantity moq minimumlotsize minlotsize mindestbestellmenge mindestlosgroesse "
        "quantiteminimale quantiteminimaledecommande tailledelotminimale cantidadminima cantidadminimadepedido loteminimo",
        "Multiple": "ordermultiple lotmultiple roundingvalue rundungswert bestellvielfaches multipledecommande valeurdarrondi multiplo multiplodepedido "
        "valorderedondeo",
    },
    "bills.csv": {
        "Plant": PLANT,
        "Parent": "parentitem assembly baugruppe oberteil ensemble articleparent conjunto padre articulopadre",
        "Component": "componentitem child komponente unterteil composant componente",
        "Per": f"quantityper quantityperparent quantity usage mengeje mengepro quantitepar cantidadpor {PIECES}",
        "Scrap %": " ".join(word + unit for word in SCRAP.split() for unit in PERCENTS) + " " + " ".join("percent" + word for word in SCRAP.split()),
        "Valid from": FROM,
        "Valid to": UNTIL,
    },
    "demands.csv": WANTED,
    "calls.csv": {
        "Customer": CUSTOMER,
        "Plant": PLANT,
        "Item": ITEM,
        "Date": NEEDED,
        "Cumulative": f"cumulativecalled calledcumulative cumcalled abruffortschrittszahl cumulappele {FIGURE}",
        "Starts again": RESTART,
    },
    "shipped.csv": {
        "Customer": CUSTOMER,
        "Plant": PLANT,
        "Item": ITEM,
        "Cumulative": f"cumulativeshipped shippedcumulative cumshipped lieferfortschrittszahl cumulexpedie {FIGURE}",
    },
    "forecasts.csv": {**WANTED, "Quantity": f"forecast forecastquantity prognose prognosemenge vorhersage prevision quantiteprevue pronostico {PIECES}"},
    "receipts.csv": {**WANTED, "Due": f"arrives {EXPECTED}", "Comes": COMES},
    "firm_orders.csv": {"Plant": PLANT, "Item": ITEM, "Start": START, "Due": FINISH, "Quantity": WANTED["Quantity"], "Comes": COMES},
    "shipments.csv": {**LANE, "Arrives": f"due {EXPECTED}", "Quantity": PIECES},
    "cums.csv": {**LANE, "Cum received": RECEIVED},
    "resets.csv": {**LANE, "Date": "day resetdate datum tag jour fecha dia"},
    "vendors.csv": {
        "Vendor": "vendorname supplier suppliername lieferant kreditor fournisseur proveedor",
        "Plant": PLANT,
        "Item": ITEM,
        "Figure received": f"{RECEIVED} cumreceived",
        "In transit": TRANSIT,
        "Starts again": RESTART,
        "Since": SINCE,
    },
}
# How the number of a despatch advice is headed, and the days on which it left and on which it was booked.
ADVICE = "advice asn despatchadvice dispatchadvice deliverynote shippingnotice lieferschein lieferavis avis avisdexpedition bondelivraison"
ADVICE += " albaran avisodeexpedicion"
DESPATCHED = "despatch despatchdate dispatched dispatch dispatchdate shipped shippedon shipdate shippingdate departure departuredate versand versanddatum"
DESPATCHED += " versendet warenausgang abgang expedie expedition dateexpedition datedexpedition depart datededepart despacho fechadespacho salida fechadesalida"
BOOKED = "booked bookedon bookingdate posted postingdate received receiveddate goodsreceipt goodsreceiptdate date day buchung buchungsdatum gebucht"
BOOKED += " wareneingang eingangsdatum datum datecomptable reception datedereception fecha fechaentrada fechadeentrada fechadecontabilizacion"
SUPPLIER = {**LANE, "From": f"vendor {LANE['From']}"}
# The sheets of bin/advices: what suppliers say that they shipped, what goods-in has booked, and the figures that are carried on.
ADVICE_SHEETS = {
    "advices.csv": {
        "Advice": ADVICE,
        **SUPPLIER,
        "Quantity": f"despatchedquantity dispatchedquantity shippedquantity quantityshipped versandmenge liefermenge {PIECES}",
        "Cumulative": SHEETS["shipped.csv"]["Cumulative"],
        "Despatched": DESPATCHED,
        "Arrives": f"due {EXPECTED}",
    },
    "booked.csv": {
        "Advice": ADVICE,
        **SUPPLIER,
        "Quantity": f"bookedquantity receivedquantity quantityreceived eingangsmenge wareneingangsmenge gebuchtemenge {PIECES}",
        "Date": BOOKED,
    },
    "cums.csv": {**SHEETS["cums.csv"], "In transit": TRANSIT, "Since": SINCE},
    "vendors.csv": SHEETS["vendors.csv"],
}
DESCRIBED = "description itemdescription partdescription materialdescription itemname partname name text bezeichnung beschreibung benennung".split()
DESCRIBED += "artikelbezeichnung materialkurztext designation libelle descripcion denominacion".split()
# Headings that could mean two things, and what is asked of them.
UNCLEAR = {
    **{it: (fronts, f"in which unit? Head it {it} (periods), {it} (weeks) or {it} (days)") for it, fronts in TIMES.items()},
    "Cum received": (
        "cum cumulative cumshipped cumulativeshipped fortschrittszahl lieferfortschrittszahl cumul acumulado",
        "with what is on its way? Give the figure without it, headed Cum received",
    ),
    "Scrap %": (SCRAP, "in which unit? Head it Scrap %, with 3 where 103 are taken for 100"),
    "Backward consumption": (BACKWARD, "in which unit? Head it Backward consumption (periods)"),
    "Forward consumption": (FORWARD, "in which unit? Head it Forward consumption (periods)"),
}

# How the columns with a unit are headed in front of it.
FRONTS = {**TIMES, "Scrap %": SCRAP, "Backward consumption": BACKWARD, "Forward consumption": FORWARD}


def known_headings():
    """Yields each sheet and column with what else it may be headed, and whether a unit is to stand behind that."""
    for sheet, columns in {**SHEETS, **{it: ADVICE_SHEETS[it] for it in ADVICE_SHEETS if it not in SHEETS}}.items():
        for column, others in columns.items():
            words = (FRONTS.get(column) or others).split()
            yield sheet, column, [*dict.fromkeys(words)], column in FRONTS


class Slip(Exception):
    """A cell can't be taken. The text says why."""


class Slips:
    """What is wrong in the sheets of a folder: lines in the order of the sheets and their rows, each once."""

    def __init__(self):
        self.found = {}

    def add(self, sheet, row, text):
        """Takes a slip of a row, or of a whole sheet where the row is 0."""
        order = [*SHEETS, *ADVICE_SHEETS]
        place = order.index(sheet) if sheet in order else -1
        self.found[place, row, f"{sheet}{f' row {row}' if row else ''}{text}"] = None

    def nearest(self, text, names, least=0.5):
        """Returns the name that is most like a text, as a question in brackets, or nothing. It is looked for while slips are few."""
        plain, wanted = {it.casefold(): it for it in names} if len(self.found) < MOST_SLIPS else {}, text.casefold()
        # (of many names those that share the most pairs of letters, for matching takes long)
        likely = heapq.nlargest(30, plain, key=lambda it: len({*zip(it, it[1:])} & {*zip(wanted, wanted[1:])}))
        found = difflib.get_close_matches(wanted, likely, 1, least)
        return f" ({plain[found[0]]}?)" if found else ""

    def lines(self):
        return [text for _, _, text in sorted(self.found, key=lambda it: it[:2])]


def plain(text):
    """Returns a text with letters of ASCII for those with marks, as far as there are some."""
    if text.isascii():
        return text
    first = str.upper if text.isupper() else str.capitalize
    parts = (first(LETTERS[it.lower()]) if it.isupper() and it.lower() in LETTERS else LETTERS.get(it, it) for it in unicodedata.normalize("NFC", text))
    return "".join(it for it in unicodedata.normalize("NFKD", "".join(parts)) if not unicodedata.combining(it))


def key(heading):
    """Returns what is compared of a heading: letters and digits, without marks, and without a word as number at the end."""
    word = "".join(it for it in plain(heading).casefold().replace("%", "percent") if it.isalnum()).replace("qty", "quantity")
    return re.sub("(?<=.)(number|nummer|no|nr|code|id)$", "", word)


@functools.cache
def keys(column, others):
    """Returns what the headings of a column are compared with."""
    return {key(it) for it in (column, *others.split())}


@functools.cache
def known_keys():
    """Returns what the headings of all columns are compared with."""
    return {it for columns in SHEETS.values() for column in columns.items() for it in keys(*column)}.union(DESCRIBED)


def instead(text, part):
    """Returns what to write for a text that is no whole number: what is said of a part, where it has one or may have one."""
    found = MARKED.fullmatch(text)
    if not found or found["group"] and found["group"] == found["mark"]:
        return "write one as 1200"
    whole, group, decimals = found["whole"], found["group"], found["decimals"] or ""
    digits = "-" * text.startswith("-") + re.sub("[^0-9]", "", whole)
    if not int(digits) and not decimals.strip("0"):
        return "write it as 0"
    if decimals.strip("0") or group and whole.startswith("0"):
        return part
    if not group or decimals or group not in ".," or whole.count(group) > 1:
        return f"write it as {int(digits)}"
    # (with three digits behind one point or comma, which may be decimals)
    if whole.endswith("000"):
        return f"write {digits} or {digits[:-3]}, whichever is meant"
    return f"write {digits} if that is meant" + (f", else {part}" if part else "")


def is_signed(text, form):
    """Returns whether a number has signs by which a form parts thousands and decimals."""
    return form[1] in text or form[5] in text


def in_form(text, form):
    """Returns the whole number and the decimals of a text in the form that --numbers says."""
    group, mark = form[1], form[5]
    found = re.fullmatch(f"(-?(?:0|[1-9][0-9]*|[1-9][0-9]{{0,2}}(?:[{group}][0-9]{{3}})+))(?:[{mark}]([0-9]+))?", text)
    if not found:
        raise Slip(f"{text!r} isn't written as --numbers {form} says")
    return found[1].replace(group, ""), found[2] or ""


def unsigned(text, form, part):
    """Returns a number without the signs by which a form parts thousands and decimals. Decimals of 0 say nothing."""
    if not is_signed(text, form):
        return text
    whole, decimals = in_form(text, form)
    if decimals.strip("0"):
        raise Slip(f"{text!r} is no whole number" + (f"; {part}" if part else ""))
    return whole


def quoted(part):
    """Returns a part of a note, with quotes where a comma, a quote or a line end would part it: `parts_of` reads it back."""
    return '"{}"'.format(part.replace('"', '""')) if re.search('[,"\r\n]', part) else part


def parts_of(note):
    """Returns the parts of a note, between which commas stand."""
    return next(csv.reader(io.StringIO(note, newline=""), skipinitialspace=True), [])


def is_zero(text, form=None):
    """Returns whether a number is 0, in the form that --numbers says."""
    return text == "0" or bool(form and re.fullmatch(f"0[{form[5]}]0+", text))


def number(least, most, part=SMALLER, form=None, large=0):
    """Returns what reads a whole number between two, in the form that --numbers says, and for a part of one says what is given. Of a
    greater one it says that --large takes it, where that takes up to as many.
    """

    def read(cell):
        text = unsigned(cell, form, part) if form else cell
        if not DIGITS.fullmatch(text):
            if re.fullmatch("-?0[0-9]+", text):
                sign, digits = text[: text.startswith("-")], text.lstrip("-")
                meant = f", or where {sign}0.{digits[1:]} is meant {part}" if part else ""
                raise Slip(f"{text!r} begins with a 0; write {int(text)}{meant}")
            raise Slip(f"{text!r} is no whole number" + (f"; {more}" if (more := instead(text, part)) else ""))
        if not least <= int(text) <= most:
            cure = f"; with --large up to {large}" * (most < int(text) <= large)
            raise Slip(f"{text!r} is not from {least} to {most}{cure}")
        return int(text)

    return read


def with_point(text, parting):
    """Returns the whole number and the decimals of a text with a point before them, or a comma where another sign parts the cells of its sheet.
    Where a comma or, in such a sheet, a point stands before exactly three digits it may part thousands, and is a slip.
    """
    found = re.fullmatch("(-?(?:0|[1-9][0-9]{0,98}))(?:([.,])([0-9]{1,98}))?", text)
    if not found:
        # (which is no whole number either)
        number(0, 0, point_for(text))(text)
    whole, mark, decimals = found.groups("")
    thousands = len(decimals) == 3 and whole.lstrip("-") != "0"
    if mark == "," and (len(decimals) == 3 or parting == ",") or mark == "." and parting != "," and thousands:
        more = decimals.rstrip("0")
        point = whole + "." * bool(more) + more + "0" * (len(more) == 3 and thousands and parting != ",")
        raise Slip(f"{text!r}: write {whole}{decimals} or {point}, whichever is meant" if thousands else f"{text!r}: write it as {point}")
    return whole, decimals


def point_for(text):
    """Returns what is told of decimals in a text that has other signs too, or which begins with a 0."""
    found = MARKED.fullmatch(text)
    if not found or not found["decimals"]:
        return "write that"
    return f"write it as {'-' * text.startswith('-')}{re.sub('[^0-9]', '', found['whole'])}.{found['decimals']}"


def ratio(form, parting):
    """Returns what reads a number that may have decimals, exactly, in the form that --numbers says, and else as a sheet has it in which this sign
    parts cells.
    """

    def read(text):
        if DIGITS.fullmatch(text):
            return int(text)
        whole, decimals = in_form(text, form) if form and is_signed(text, form) else with_point(text, parting)
        if len(whole + decimals) > 198:
            raise Slip(f"{text!r} is no number; write one as 2 or 0.25")
        return Fraction(f"{whole}.{decimals or 0}")

    return read


@functools.lru_cache(maxsize=10_000)
def day(text, slashes):
    """Returns the day that a date says. What stands first between slashes is the day or month as d/m/y or m/d/y says."""
    iso = re.fullmatch(r"(\d{4})-(\d\d)-(\d\d)(?:[ T]00:00(?::00(?:\.0+)?)?)?", text, re.ASCII)
    other = re.fullmatch(r"(\d\d?)([./])(\d\d?)\2(\d{4})", text, re.ASCII)
    try:
        if iso:
            return datetime.date(*map(int, iso.groups()))
        if other and (other[2] == "." or slashes):
            first, second = int(other[1]), int(other[3])
            return datetime.date(int(other[4]), *((first, second) if other[2] == "/" and slashes == "m/d/y" else (second, first)))
    except ValueError:
        raise Slip(f"{text!r} is on no calendar") from None
    raise Slip(f"{text!r} may have day or month first; --dates says which" if other else f"{text!r} is no date; write it as 2026-12-01")


class Row:
    """A row of a sheet, with its number there."""

    def __init__(self, sheet, place, cells):
        self.sheet, self.place, self.cells = sheet, place, cells

    def text(self, column):
        return self.cells[self.sheet.places[column]]

    def slip(self, column, text):
        self.sheet.slip(self.place, f", {self.sheet.heading(column)}: {text}")

    def read(self, column, read=str):
        """Returns what a cell says, or nothing where that is a slip."""
        text = self.cells[self.sheet.places[column]]
        try:
            if not text:
                raise Slip("nothing stands here")
            return read(text)
        except Slip as why:
            self.slip(column, why if not text or repr(text) in str(why) else f"{text!r}: {why}")
            return None

    def has_mark(self, column):
        """Returns whether a cell says yes. Where the column is missing it says no."""
        text = self.text(column) if column in self.sheet.places else ""
        if (word := plain(text).casefold()) not in YES | NO:
            self.slip(column, f"{text!r} is neither yes nor no; write x, or nothing")
        return word in YES

    def rest(self, part=str):
        """Returns what the other columns say: descriptions, and the others, each behind its heading and as a function writes it."""
        taken, parts = {*self.sheet.places.values()}, ([], [])
        for place, (head, text) in enumerate(zip(self.sheet.heads, self.cells)):
            if text and place not in taken:
                described = key(head) in DESCRIBED
                parts[not described].append(text if described else part(f"{head} {text}".strip()))
        return tuple(", ".join(it) for it in parts)


class Sheet:
    """A sheet of a folder, of columns that are named or those of its name. Where it can't be read it has no columns and no
    rows, and slips."""

    def __init__(self, folder, name, slips, columns=None):
        self.name, self.slips, self.columns, self.mark = name, slips, columns or SHEETS[name], ","
        self.places, self.heads, self.records, self.is_whole = {}, [], iter(()), False
        if os.path.exists(f"{folder}/{name}"):
            with open(f"{folder}/{name}", "rb") as file:
                self.open(file.read())

    def slip(self, place, text):
        self.slips.add(self.name, place, text)

    def heading(self, column):
        return self.heads[self.places[column]]

    def place(self, column, others):
        """Returns the place of a column that isn't among those of the sheet, or nothing where there is none."""
        return next((place for place, it in enumerate(self.heads) if key(it) in keys(column, others)), None)

    def open(self, found):
        """Finds the columns, with the separator by which most are found."""
        try:
            # (a letter and its mark are one, in whatever way the sheet has them)
            text = unicodedata.normalize("NFC", found.decode("utf-16" if found[:2] in (b"\xff\xfe", b"\xfe\xff") else "utf-8-sig"))
        except UnicodeDecodeError as fault:
            self.slip(found[: fault.start].count(b"\n") + 1, ": its text isn't UTF-8; save the sheet as CSV UTF-8")
            return
        known = set().union(*itertools.starmap(keys, self.columns.items()))
        heads = {mark: next(csv.reader(io.StringIO(text[:100_000], newline=""), delimiter=mark), []) for mark in ",;\t"}
        self.mark = max(heads, key=lambda it: (sum(key(head) in known for head in heads[it]), len(heads[it])))
        self.heads = [it.strip() for it in heads[self.mark]]
        if not any(self.heads):
            self.slip(0, ": it has no headings")
        elif all([self.find(*it) for it in self.columns.items()]):
            self.records, self.is_whole = csv.reader(io.StringIO(text, newline=""), delimiter=self.mark, strict=True), True
            self.next(1)
        else:
            self.places = {}

    def find(self, column, others):
        """Finds a column by its headings, and returns whether there is one, or none is needed."""
        unclear, question = UNCLEAR.get(column, ("", ""))
        headings = keys(column, others) - {*unclear.split()}
        found = [place for place, head in enumerate(self.heads) if key(head) in headings]
        if len(found) == 1:
            self.places[column] = found[0]
        elif found:
            self.slip(1, f": {column} stands twice, as {' and '.join(self.heads[it] for it in found)}")
        elif asked := [it for it in self.heads if key(it) in unclear.split()]:
            self.slip(1, f", {asked[0]}: {question}")
        else:
            meant = self.nearest(headings, 0.8 if column in OPTIONAL else 0.65)
            if column in OPTIONAL and not meant:
                return True
            self.slip(1, f": it has no column {column}{meant}")
        return len(found) == 1

    def nearest(self, headings, least):
        """Returns the heading that is most like those of a column, and is of no other one, as a question in brackets, or nothing."""
        likely = [(it, difflib.get_close_matches(key(it), headings, 1, least)) for it in self.heads[:100] if key(it) not in known_keys()]
        found = max(((difflib.SequenceMatcher(None, key(it), same[0]).ratio(), it) for it, same in likely if same), default=None)
        return f" ({found[1]}?)" if found else ""

    def next(self, place):
        """Returns the next row, or nothing where there is none or its quotes are wrong."""
        try:
            return next(self.records, None)
        except csv.Error as fault:
            self.slip(place, f": its quotes are wrong ({fault})")
            self.is_whole = False
            return None

    def rows(self):
        """Yields the rows that aren't empty."""
        place, wide = 1, len(self.heads)
        while (cells := self.next(place + 1)) is not None:
            place, cells = place + 1, [it.strip() for it in cells]
            if any(cells[wide:]):
                self.slip(place, f": it has more cells than headings, as {next(filter(None, cells[wide:]))!r}; a separator within a cell wants quotes")
            if any(cells):
                row = Row(self, place, cells + [""] * (wide - len(cells)))
                empty = [it for it in self.places if it not in OPTIONAL and not row.text(it)]
                if len(empty) > 1 and NAMING.intersection(empty):
                    *heads, last = map(self.heading, empty)
                    self.slip(place, f": {', '.join(heads)} and {last} are empty; delete the row if it is a sum")
                else:
                    yield row
