# A client of `shadowd serve`, over HTTP. docs/HTTP.md of the project has the routes and the refusals.

MOST_WHOLE <- 2^53 - 1
TIMES <- 4

shadow_client <- function(url, token = Sys.getenv("SHADOWD_TOKEN"), map = NULL) {
  if (!grepl("^https?://", url)) refuse(sprintf("%s: a URL begins with http:// or https://", url))
  if (is.character(map)) map <- read_map(map)
  structure(class = "shadow_client", list(
    url = sub("/+$", "", url), token = token, names = if (is.null(map)) NULL else item_names(map)
  ))
}

shadow_begin <- function(client, booking, without = NULL) {
  body <- paste0("\"booking\":", whole_text(booking, "booking"))
  if (length(without)) {
    numbers <- if (is.null(client$names)) without else item_numbers(without, client$names)
    body <- paste0(body, ",\"without\":[", paste(vapply(numbers, whole_text, "", name = "without"), collapse = ","), "]")
  }
  asked(client, "POST", "/sessions", body)
}

shadow_place <- function(client, session) asked(client, "GET", session_path(session))

shadow_answer <- function(client, session, step, response, booking) {
  body <- sprintf("\"step\":%s,\"response\":%s,\"booking\":%s", whole_text(step, "step"), whole_text(response, "response"),
                  whole_text(booking, "booking"))
  asked(client, "POST", paste0(session_path(session), "/answers"), body)
}

# A close that is sent again gets `is-closed`: the session is closed, which was asked for.
shadow_close <- function(client, session, booking) {
  body <- paste0("\"booking\":", whole_text(booking, "booking"))
  tryCatch(asked(client, "POST", paste0(session_path(session), "/close"), body), shadow_reply = function(refusal) {
    if (!identical(refusal$error, "is-closed") || !identical(refusal$value, "closed")) stop(refusal)
    list(session = session, state = "closed")
  })
}

# A whole session. A session that was left is gone on with: a start that is sent again finds it.
shadow_cat <- function(client, booking, answer, without = NULL) {
  place <- shadow_begin(client, booking, without)
  given <- list()
  while (place$state %in% c("waiting", "pending")) {
    if (place$state == "pending") {
      Sys.sleep(0.1)
      place <- shadow_begin(client, booking, without)
      next
    }
    item <- if (is.null(place$id)) place$item else place$id
    response <- answer(item)
    given[[length(given) + 1]] <- data.frame(step = place$step, item = item, response = response, proved = place$proved, stringsAsFactors = FALSE)
    place <- shadow_answer(client, place$session, place$step, response, booking)
  }
  list(booking = booking, session = place$session, state = place$state, steps = do.call(rbind, given))
}

shadow_health <- function(client) asked(client, "GET", "/health")

session_path <- function(session) paste0("/sessions/", whole_text(session, "session"))

# A whole number in digits alone. R has no exact whole number above 2^53, so a greater one is refused.
whole_text <- function(x, name) {
  if (length(x) != 1 || !is.numeric(x) || is.na(x) || x < 0 || x != round(x)) refuse(sprintf("%s: one whole number from 0 on", name))
  if (x > MOST_WHOLE) refuse(sprintf("%s: %.0f is above 2^53 - 1, where R's numbers are not exact", name, x))
  sprintf("%.0f", x)
}

# The body of a reply as a list. A lost reply is asked again three times: each message may be sent again.
asked <- function(client, method, path, members = NULL) {
  reply <- fetched(client, method, path, if (!is.null(members)) paste0("{", members, "}"))
  body <- tryCatch(jsonlite::fromJSON(rawToChar(reply$content)), error = function(fault) list())
  if (!is.list(body)) body <- list()
  if (reply$status_code >= 400) {
    error <- if (is.null(body$error)) "no reply of shadowd" else body$error
    value <- if (is.null(body$value)) "" else paste0(" ", body$value)
    refuse(sprintf("%s %s: %d %s%s", method, path, reply$status_code, error, value), status = reply$status_code,
           class = c("shadow_reply", "shadow_refused"), error = body$error, value = body$value)
  }
  if (!is.null(body$item) && !is.null(client$names)) body$id <- client$names[body$item + 1]
  body
}

fetched <- function(client, method, path, text) {
  for (time in seq_len(TIMES)) {
    reply <- tryCatch(curl::curl_fetch_memory(paste0(client$url, path), handle_of(client, method, text)), error = identity)
    if (!inherits(reply, "error")) return(reply)
    if (time < TIMES) Sys.sleep(0.2 * time)
  }
  refuse(sprintf("%s%s: no reply after %d messages: %s", client$url, path, TIMES, conditionMessage(reply)), class = c("shadow_lost", "shadow_refused"))
}

handle_of <- function(client, method, text) {
  handle <- curl::new_handle(customrequest = method, timeout = 60)
  if (!is.null(text)) curl::handle_setopt(handle, postfields = text)
  fields <- list("Content-Type" = "application/json", "Expect" = "")
  if (nzchar(client$token)) fields[["Authorization"]] <- paste("Bearer", client$token)
  curl::handle_setheaders(handle, .list = fields)
  handle
}
