//! The validation of an expression, in the form of cedar-policy-core.
use crate::ast::{Expr, ExprValidationError};

impl Expr {
    /// Returns the expression if it calls only known functions: `ip`, `decimal`, `datetime` and `duration`.
    ///
    /// # Errors
    ///
    /// `UnknownFunction`: the expression calls another function. The error has the name of the first one, in the order
    /// of [`Expr::subexpressions`].
    ///
    /// # Examples
    ///
    /// ```
    /// use cedar_store::ast::{Expr, Name};
    ///
    /// let price = Expr::call(Name::from_normalized_str("decimal")?, vec![Expr::val("1.5")]).try_validate()?;
    /// assert_eq!(price.to_string(), r#"decimal("1.5")"#);
    /// let error = Expr::call(Name::from_normalized_str("foo")?, vec![]).try_validate().unwrap_err();
    /// assert_eq!(error.to_string(), "`foo` is not a known function");
    /// # Ok::<(), Box<dyn std::error::Error>>(())
    /// ```
    pub fn try_validate(self) -> Result<Self, ExprValidationError> {
        self.check_calls()?;
        Ok(self)
    }
}
