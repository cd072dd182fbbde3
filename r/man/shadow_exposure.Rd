\name{shadow_exposure}
\alias{shadow_exposure}
\alias{shadow_rules}
\title{Exposure and rules of a simulation}
\description{Gives the tables of exposure and of rules that \code{shadow report} writes beside its page.}
\usage{
shadow_exposure(run, bands = NULL, by = "truth")
shadow_rules(run)
}
\arguments{
  \item{run}{a simulation of \code{\link{shadow_simulate}}.}
  \item{bands}{edges of bands of ability, ascending; \code{NULL} for those of the page. An edge is in the band above it.}
  \item{by}{\code{"truth"} or \code{"estimate"}: of what the bands are.}
}
\details{Each call makes the report and leaves its page away. Whoever needs both tables takes them from \code{\link{shadow_report}}.}
\value{
  \code{shadow_exposure}: a data frame with a row for each item of the bank: how often it was \code{shown}, its \code{exposure}, which is
  the share of the tests that have it, the plan's \code{rate}, and a column for each band, as \code{"exposure -1 to 0"}.

  \code{shadow_rules}: a data frame with a row for each rule of the plan: its bounds \code{low} and \code{high}, the number of \code{tests} that
  it speaks of, its \code{least}, \code{mean} and \code{greatest} value in them, the shares of tests \code{at_low} and \code{at_high}, and
  in how many it is \code{broken}.
}
\examples{
\dontrun{
exposure <- shadow_exposure(run, bands = c(-1, 0, 1))
head(exposure[order(-exposure$exposure), ])
shadow_rules(run)
}
}
