"""The tools of agencies: bank, plan, simulation, scores. docs/GUIDE.md has them in the order of their use."""
