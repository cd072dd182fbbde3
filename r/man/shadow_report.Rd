\name{shadow_report}
\alias{shadow_report}
\alias{shadow_report.default}
\alias{shadow_report.shadow_exam}
\alias{shadow_report.shadow_run}
\title{A simulation or a window as a page}
\description{Makes the page of a simulation, or the technical report of a window of real examinees, by the command \code{shadow report}.}
\usage{
shadow_report(x, file, ...)
\method{shadow_report}{shadow_run}(x, file, options = character(), ...)
\method{shadow_report}{shadow_exam}(x, file, journal, record, options = character(), ...)
}
\arguments{
  \item{x}{a simulation of \code{\link{shadow_simulate}}; or an examination of \code{\link{shadow_bank}}, for a window.}
  \item{file}{the path of the page, as \code{"report.html"}. Its tables are written beside it.}
  \item{journal}{the path of the journal of a window.}
  \item{record}{the path of the record of its scores, which \code{\link{shadow_score}} keeps where it is given one.}
  \item{options}{more words of the command, as \code{c("--cuts", "450", "550")}, or \code{c("--session", "0")} for the page
    for an appeal. The guide of the project has them.}
  \item{\dots}{not used.}
}
\details{
  The page needs Python's matplotlib, scipy, pandas and jinja2. A page that shows a broken rule, or two audits that do not agree, is written,
  and the command refuses: that is an error of class \code{shadow_refused}.
}
\value{Invisibly, a list: the path \code{file}, the lines that were printed in \code{said}, and the tables beside the page as data frames:
  \code{people}, \code{answers}, \code{items} and \code{rules} of a simulation, \code{people} and \code{items} of a window.}
\seealso{\code{\link{shadow_exposure}}, \code{\link{shadow_rules}}}
\examples{
\dontrun{
run <- shadow_simulate(exam, examinees = 200)
shadow_report(run, "simulation.html")
shadow_score(exam, "window.journal", record = "record.json")
shadow_report(exam, "window.html", journal = "window.journal", record = "record.json")
}
}
