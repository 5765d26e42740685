"""A second, slow evaluator of the script language, written from the manual and apart from jd."""
