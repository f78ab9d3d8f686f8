//! The ETCS packets, a function to a kind, each from the field after L_PACKET.
//!
//! They are inlined into the walk so that the position can stay in a register.

use crate::field::*;
use crate::refusal::Refusal;
use crate::source::{list, Fields};

/// ETCS-5.
#[inline(always)]
pub(crate) fn linking<F: Fields>(fields: &mut F) -> Result<(), Refusal> {
    fields.take(&[Q_SCALE])?;
    list(fields, |fields| {
        let [_, new_country] = fields.take(&[D_LINK, Q_NEWCOUNTRY])?;
        if new_country == 1 {
            fields.take(&[NID_C])?;
        }
        fields.take(&[NID_BG, Q_LINKORIENTATION, Q_LINKREACTION, Q_LOCACC])?;
        Ok(())
    })
}

/// ETCS-21.
#[inline(always)]
pub(crate) fn gradients<F: Fields>(fields: &mut F) -> Result<(), Refusal> {
    let [.., more] = fields.take(&[Q_SCALE, D_GRADIENT, Q_GDIR, G_A, N_ITER])?;
    fields.repeat(more, &[D_GRADIENT, Q_GDIR, G_A])
}

/// ETCS-27.
#[inline(always)]
pub(crate) fn static_speeds<F: Fields>(fields: &mut F) -> Result<(), Refusal> {
    fields.take(&[Q_SCALE])?;
    list(fields, |fields| {
        let [.., train_types] = fields.take(&[D_STATIC, V_STATIC, Q_FRONT, N_ITER])?;
        fields.repeat(train_types, &[NC_DIFF, V_DIFF])
    })
}

/// ETCS-41.
#[inline(always)]
pub(crate) fn level_order<F: Fields>(fields: &mut F) -> Result<(), Refusal> {
    fields.take(&[Q_SCALE, D_LEVELTR])?;
    list(fields, |fields| {
        let [level] = fields.take(&[M_LEVELTR])?;
        if level == 1 {
            fields.take(&[NID_STM])?;
        }
        fields.take(&[L_ACKLEVELTR])?;
        Ok(())
    })
}

/// ETCS-42.
#[inline(always)]
pub(crate) fn session<F: Fields>(fields: &mut F) -> Result<(), Refusal> {
    fields.take(&[Q_RBC, NID_C, NID_RBC, NID_RADIO, Q_SLEEPSESSION])?;
    Ok(())
}

/// ETCS-46.
#[inline(always)]
pub(crate) fn conditional_levels<F: Fields>(fields: &mut F) -> Result<(), Refusal> {
    list(fields, |fields| {
        let [level] = fields.take(&[M_LEVELTR])?;
        if level == 1 {
            fields.take(&[NID_STM])?;
        }
        Ok(())
    })
}

/// ETCS-68.
#[inline(always)]
pub(crate) fn track_conditions<F: Fields>(fields: &mut F) -> Result<(), Refusal> {
    let [_, initial] = fields.take(&[Q_SCALE, Q_TRACKINIT])?;
    if initial == 1 {
        fields.take(&[D_TRACKINIT])?;
        return Ok(());
    }
    let [.., more] = fields.take(&[D_TRACKCOND, L_TRACKCOND, M_TRACKCOND, N_ITER])?;
    fields.repeat(more, &[D_TRACKCOND, L_TRACKCOND, M_TRACKCOND])
}

/// ETCS-72.
#[inline(always)]
pub(crate) fn text<F: Fields>(fields: &mut F) -> Result<(), Refusal> {
    let [.., level] = fields.take(&[
        Q_SCALE,
        Q_TEXTCLASS,
        Q_TEXTDISPLAY,
        D_TEXTDISPLAY,
        M_MODETEXTDISPLAY,
        M_LEVELTEXTDISPLAY,
    ])?;
    if level == 1 {
        fields.take(&[NID_STM])?;
    }
    let [.., level] = fields.take(&[
        L_TEXTDISPLAY,
        T_TEXTDISPLAY,
        M_MODETEXTDISPLAY,
        M_LEVELTEXTDISPLAY,
    ])?;
    if level == 1 {
        fields.take(&[NID_STM])?;
    }
    let [_, characters] = fields.take(&[Q_TEXTCONFIRM, L_TEXT])?;
    fields.repeat(characters, &[X_TEXT])
}

/// ETCS-79.
#[inline(always)]
pub(crate) fn positions<F: Fields>(fields: &mut F) -> Result<(), Refusal> {
    fields.take(&[Q_SCALE])?;
    list(fields, |fields| {
        let [new_country] = fields.take(&[Q_NEWCOUNTRY])?;
        if new_country == 1 {
            fields.take(&[NID_C])?;
        }
        fields.take(&[NID_BG, D_POSOFF, Q_MPOSITION, M_POSITION])?;
        Ok(())
    })
}

/// ETCS-131.
#[inline(always)]
pub(crate) fn rbc_handover<F: Fields>(fields: &mut F) -> Result<(), Refusal> {
    fields.take(&[Q_SCALE, D_RBCTR, NID_C, NID_RBC, NID_RADIO, Q_SLEEPSESSION])?;
    Ok(())
}

/// ETCS-132.
#[inline(always)]
pub(crate) fn danger<F: Fields>(fields: &mut F) -> Result<(), Refusal> {
    fields.take(&[Q_ASPECT])?;
    Ok(())
}

/// ETCS-137.
#[inline(always)]
pub(crate) fn stop_in_sr<F: Fields>(fields: &mut F) -> Result<(), Refusal> {
    fields.take(&[Q_SRSTOP])?;
    Ok(())
}
