\name{shadow_client}
\alias{shadow_client}
\alias{shadow_begin}
\alias{shadow_place}
\alias{shadow_answer}
\alias{shadow_cat}
\alias{shadow_close}
\alias{shadow_health}
\title{A client of a running server}
\description{Asks \code{shadowd serve} over HTTP.}
\usage{
shadow_client(url, token = Sys.getenv("SHADOWD_TOKEN"), map = NULL)
shadow_begin(client, booking, without = NULL)
shadow_place(client, session)
shadow_answer(client, session, step, response, booking)
shadow_close(client, session, booking)
shadow_cat(client, booking, answer, without = NULL)
shadow_health(client)
}
\arguments{
  \item{url}{the address of the server, as \code{"http://127.0.0.1:4710"}.}
  \item{token}{the token of the server; none where it is empty.}
  \item{map}{the map of the examination, or its path. With it a reply also has the \code{id} of its item.}
  \item{client}{what \code{shadow_client} gives.}
  \item{booking}{the booking of the session. One above 2^53 - 1 is refused: R's numbers are not exact there.}
  \item{without}{items that the examinee must not get: numbers, or IDs where the client has a map.}
  \item{answer}{a function of an item that gives the response to it. The item is an ID where the client has a map, else a number.}
  \item{session, step, response}{the session and the step of a reply, and the response to its item.}
}
\details{
  A message whose reply is lost is sent again, three times at most; the server records it once. After that the error has
  the class \code{shadow_lost}. A refusal of the server is an error of class \code{shadow_reply} with \code{status}, \code{error} and
  \code{value}. Both have the class \code{shadow_refused} too. A session that is closed already counts as closed by \code{shadow_close}.

  \code{shadow_cat} takes a whole session. An error of \code{answer} leaves the session where it is, and the same call goes on with it.
}
\value{The body of the reply as a list, as \code{list(item = 2, proved = TRUE, session = 0, state = "waiting", step = 0)}.
  \code{shadow_cat} gives a list: \code{booking}, \code{session}, \code{state}, and the \code{steps} of this call as a data frame with \code{step},
  \code{item}, \code{response} and \code{proved}.}
\examples{
\dontrun{
client <- shadow_client("http://127.0.0.1:4710", map = "exam.map.json")
place <- shadow_begin(client, booking = 70)
while (place$state == "waiting") {
  place <- shadow_answer(client, place$session, place$step, response = 1, booking = 70)
}
shadow_cat(client, booking = 71, answer = function(item) rbinom(1, 1, 0.6))$steps
}
}
