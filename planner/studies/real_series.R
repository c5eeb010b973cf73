# Prints real series of installed packages of R as CSV: set, series, and the count of each period in order.
# Of what a package lacks, nothing is printed.

say <- function(set, series, counts) {
  counts <- round(as.numeric(counts))
  if (all(is.finite(counts)) && all(counts >= 0) && length(counts) > 0)
    cat(set, gsub("[^A-Za-z0-9 ]", " ", series), counts, sep = ",", fill = FALSE, "\n")
}

has <- function(package) nzchar(system.file(package = package))

load_data <- function(name, package) {
  room <- new.env()
  suppressWarnings(data(list = name, package = package, envir = room))
  if (length(ls(room))) get(ls(room)[1], room) else NULL
}

# Weekly counts of reported cases: a series for each disease, and each district, state or age.
if (has("surveillance")) {
  suppressMessages(library(surveillance))
  names <- sub(" .*", "", data(package = "surveillance")$results[, "Item"])
  for (name in setdiff(names, c("ha", "measles.weser"))) {  # which stand there twice
    found <- tryCatch(load_data(name, "surveillance"), error = function(fault) NULL)
    counts <- if (is(found, "sts")) observed(found) else if (is(found, "disProg")) as.matrix(found$observed) else NULL
    often <- if (is(found, "sts")) found@freq else if (is(found, "disProg")) found$freq else 0
    if (is.null(counts) || !(often %in% c(12, 52))) next
    for (place in seq_len(ncol(counts)))
      say(if (often == 52) paste0("cases ", name) else paste0("monthly ", name), paste(name, place), counts[, place])
  }
}

# Weekly sales: orange juice by store and brand in half gallons, cheese by chain and city, tuna by brand.
if (has("bayesm")) {
  juice <- load_data("orangeJuice", "bayesm")$yx
  juice <- juice[order(juice$store, juice$brand, juice$week), ]
  for (rows in split(juice, list(juice$brand, juice$store), drop = TRUE))
    say("juice", paste("store", rows$store[1], "brand", rows$brand[1]), exp(rows$logmove) / 64)
  cheese <- load_data("cheese", "bayesm")
  for (rows in split(cheese, cheese$RETAILER, drop = TRUE)) say("cheese", as.character(rows$RETAILER[1]), rows$VOLUME)
  tuna <- load_data("tuna", "bayesm")
  for (name in grep("^MOVE", names(tuna), value = TRUE)) say("tuna", name, tuna[[name]])
}

# Monthly sales: homes by city, and prescriptions by physician.
if (has("ggplot2")) {
  homes <- as.data.frame(load_data("txhousing", "ggplot2"))
  for (rows in split(homes, homes$city, drop = TRUE)) say("homes", rows$city[1], rows$sales)
}
if (has("bayesm")) {
  scripts <- load_data("detailing", "bayesm")$counts
  for (rows in split(scripts, scripts$id)) say("prescriptions", paste("physician", rows$id[1]), rows$scripts)
}

# Weekly rides from stations of a city, in thousands.
if (has("modeldata")) {
  rides <- as.data.frame(load_data("Chicago", "modeldata"))
  week <- as.integer(as.Date(rides$date) - as.Date("2001-01-22")) %/% 7  # the first day is a Monday
  whole <- week %in% names(which(table(week) == 7))
  for (station in names(rides)[3:21]) say("rides", station, tapply(rides[whole, station], week[whole], sum))
}
